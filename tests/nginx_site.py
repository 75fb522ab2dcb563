"""Starts nginx with a configuration of examples/ and asks it by http.client. tests/dashboard and tests/front use it, and
proxied.py for the tests of stores behind nginx."""
import http.client
import os
import shutil
import signal
import subprocess
import sys
import tempfile
import time

from served import free_port

KINDS = ('client_body', 'proxy', 'fastcgi', 'uwsgi', 'scgi')


def nginx():
    """Returns the path of nginx, if it is installed."""
    return shutil.which('nginx') or shutil.which('nginx', path='/usr/sbin:/sbin')


class Nginx:
    """A running nginx with a configuration in which texts, such as ports and folders, are replaced by others."""

    def __init__(self, configuration, listens, replacements):
        self.folder = tempfile.TemporaryDirectory()
        os.chmod(self.folder.name, 0o755)
        self.port = free_port()
        with open(configuration, encoding='utf8') as file:
            text = file.read()
        for old, new in {listens: self.port, **replacements}.items():
            if old not in text:
                sys.exit(f'{configuration} lacks {old}')
            text = self.replaced(text, old, str(new))
        self.write('site.conf', text)
        temporary = ''.join(f'{kind}_temp_path {self.path(kind)};' for kind in KINDS)
        self.write(
            'nginx.conf',
            f'daemon off; master_process off; pid {self.path("pid")}; error_log {self.path("errors")};\n'
            f'events {{}} http {{ access_log off; {temporary} include {self.path("site.conf")}; }}\n',
        )
        call = [nginx(), '-p', self.folder.name, '-c', self.path('nginx.conf'), '-e', self.path('errors')]
        self.process = subprocess.Popen(
            call, stdin=subprocess.DEVNULL, stdout=subprocess.DEVNULL, stderr=subprocess.DEVNULL
        )
        self.wait_until_it_listens()

    def replaced(self, text, old, new):
        return text.replace(old, new)

    def path(self, name):
        return os.path.join(self.folder.name, name)

    def write(self, name, text):
        os.makedirs(os.path.dirname(self.path(name)), exist_ok=True)
        with open(self.path(name), 'w', encoding='utf8') as file:
            file.write(text)

    def listens(self):
        try:
            self.ask('GET', '/no-such-path')
            return True
        except OSError:
            return False

    def wait_until_it_listens(self):
        for _ in range(200):
            if self.listens():
                return
            time.sleep(0.05)
        with open(self.path('errors'), encoding='utf8') as file:
            sys.exit('nginx does not listen: ' + file.read())

    def ask(self, method, target, body=None, headers=None):
        """Returns the status, the headers and the body of a reply."""
        connection = http.client.HTTPConnection('127.0.0.1', self.port, timeout=20)
        connection.request(method, target, body, headers or {})
        response = connection.getresponse()
        text = response.read().decode()
        connection.close()
        return response.status, dict(response.getheaders()), text

    def end(self):
        self.process.send_signal(signal.SIGTERM)
        self.process.wait()
        self.folder.cleanup()

    def __enter__(self):
        return self

    def __exit__(self, *_):
        self.end()
