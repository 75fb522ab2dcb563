"""Drives a headless Chromium by chromedriver, which takes JSON over HTTP. tests/dashboard uses it."""
import base64
import http.client
import json
import os
import shutil
import subprocess
import tempfile
import time

from served import free_port

ELEMENT = 'element-6066-11e4-a52e-4f735466cecf'
OPTIONS = (
    '--headless=new',
    '--no-sandbox',
    '--disable-gpu',
    '--disable-dev-shm-usage',
    '--hide-scrollbars',
    '--window-size=1200,1090',
)


def missing_parts():
    """Returns the names of Debian's packages that aren't installed."""
    return [
        package
        for package, name in (('chromium', 'chromium'), ('chromium-driver', 'chromedriver'))
        if not shutil.which(name)
    ]


class Browser:
    """A headless Chromium in a time zone, with a folder of its own."""

    def __init__(self, zone):
        self.folder = tempfile.TemporaryDirectory()
        self.port = free_port()
        environment = dict(os.environ, TZ=zone, HOME=self.folder.name)
        call = ['chromedriver', f'--port={self.port}']
        self.process = subprocess.Popen(
            call, env=environment, stdin=subprocess.DEVNULL, stdout=subprocess.DEVNULL, stderr=subprocess.DEVNULL
        )
        arguments = [*OPTIONS, f'--user-data-dir={self.folder.name}/profile']
        wanted = {
            'capabilities': {
                'alwaysMatch': {'goog:chromeOptions': {'args': arguments, 'binary': shutil.which('chromium')}}
            }
        }
        self.session = '/session/' + self.when_it_listens(wanted)['sessionId']

    def when_it_listens(self, wanted):
        for _ in range(200):
            try:
                return self.ask('POST', '/session', wanted)
            except ConnectionRefusedError:
                time.sleep(0.05)
        raise TimeoutError('chromedriver does not listen')

    def ask(self, method, target, body=None):
        """Returns the value of chromedriver's reply."""
        connection = http.client.HTTPConnection('127.0.0.1', self.port, timeout=60)
        connection.request(
            method, target, None if body is None else json.dumps(body), {'Content-Type': 'application/json'}
        )
        value = json.loads(connection.getresponse().read())['value']
        connection.close()
        if isinstance(value, dict) and 'error' in value:
            raise RuntimeError(f'{value["error"]}: {value["message"]}')
        return value

    def open(self, address):
        self.ask('POST', self.session + '/url', {'url': address})

    def run(self, script, *arguments):
        """Returns the value of a script's function body."""
        return self.ask('POST', self.session + '/execute/sync', {'script': script, 'args': list(arguments)})

    def wait_for(self, script, patience=20):
        """Returns the script's value as soon as it is true, or its last value."""
        end = time.monotonic() + patience
        while not (value := self.run(script)) and time.monotonic() < end:
            time.sleep(0.05)
        return value

    def click(self, selector):
        found = self.ask('POST', self.session + '/element', {'using': 'css selector', 'value': selector})
        self.ask('POST', f'{self.session}/element/{found[ELEMENT]}/click', {})

    def drag(self, start, end):
        """Draws the pressed pointer from one point of the window to another."""
        moves = [
            {'type': 'pointerMove', 'duration': 0, 'x': start[0], 'y': start[1]},
            {'type': 'pointerDown', 'button': 0},
            {'type': 'pointerMove', 'duration': 100, 'x': end[0], 'y': end[1]},
            {'type': 'pointerUp', 'button': 0},
        ]
        pointer = {'type': 'pointer', 'id': 'mouse', 'parameters': {'pointerType': 'mouse'}, 'actions': moves}
        self.ask('POST', self.session + '/actions', {'actions': [pointer]})

    def screenshot(self, path):
        with open(path, 'wb') as file:
            file.write(base64.b64decode(self.ask('GET', self.session + '/screenshot')))

    def __enter__(self):
        return self

    def __exit__(self, *_):
        try:
            self.ask('DELETE', self.session)
        finally:
            self.process.terminate()
            self.process.wait()
            self.folder.cleanup()
