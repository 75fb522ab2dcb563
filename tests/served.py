"""Starts `tsdb serve` on a free port and sends it requests, a connection each. The scripts of tests/ and bench/ use
it."""
import itertools
import os
import random
import re
import socket
import subprocess
import tempfile
import time

OPEN_SETTINGS = '{"raw":"INF","rules":[]}'

# The lines of a server where nothing fails: that it listens, and the first refused body of each minute.
NOTES = re.compile(rb'tsdb: (listening on|refused a body of /write:) .*\n')


PORTS = itertools.cycle(random.sample(range(10000, 32000), 22000))


def free_port():
    """Returns a port that nobody listens on. It isn't returned again soon, and connections don't take it by
    themselves."""
    for port in PORTS:
        with socket.socket() as probe:
            # a process that another thread is just starting may hold the probe for a moment
            probe.setsockopt(socket.SOL_SOCKET, socket.SO_REUSEADDR, 1)
            try:
                probe.bind(('127.0.0.1', port))
                return port
            except OSError:
                continue


class Server:
    """A running `tsdb serve` that ends after a number of connections, 0 for no end. A moment sets its clock
    (devices.c).

    Its image is a new file, or the one with this name."""

    def __init__(
        self, program, requests=0, settings=OPEN_SETTINGS, moment=None, image=None, restore_signals=True, **variables
    ):
        self.folder = tempfile.TemporaryDirectory()
        self.port = free_port()
        self.moment = self.path('moment')
        self.image = image or self.path('image')
        self.errors = open(self.path('errors'), 'w+b')
        with open(self.path('settings'), 'w', encoding='utf8') as file:
            file.write(settings)
        if moment is not None:
            self.set_moment(moment)
            variables.update(MOMENT=self.moment, LD_PRELOAD=os.environ['DEVICES'])
        call = [program, 'serve', self.path('settings'), self.image, str(self.port), str(requests)]
        self.process = subprocess.Popen(
            call,
            env=dict(os.environ, **variables),
            stdin=subprocess.DEVNULL,
            stdout=subprocess.DEVNULL,
            stderr=self.errors,
            restore_signals=restore_signals,
        )

    def path(self, name):
        return os.path.join(self.folder.name, name)

    def set_moment(self, nanoseconds):
        """Sets the clock of a server that was started with a moment."""
        with open(self.moment + '.new', 'w') as file:
            file.write(str(nanoseconds))
        os.replace(self.moment + '.new', self.moment)

    def connect(self, patience=15):
        """Returns a connection, as soon as the server listens. A refused one isn't among its requests."""
        end = time.monotonic() + patience
        while True:
            try:
                return socket.create_connection(('127.0.0.1', self.port), timeout=patience)
            except ConnectionRefusedError:
                if self.process.poll() is not None or time.monotonic() > end:
                    raise
                time.sleep(0.002)

    def ask(self, request, patience=15):
        """Returns the reply to a request behind which the client's side ends."""
        with self.connect(patience) as peer:
            try:
                peer.sendall(request)
                peer.shutdown(socket.SHUT_WR)
            except OSError:
                pass  # the reply came before the whole request was read
            return everything(peer)

    def lines(self):
        """Returns the bytes on standard error so far."""
        with open(self.path('errors'), 'rb') as file:
            return file.read()

    def reports(self):
        """Returns those that report a failure."""
        return NOTES.sub(b'', self.lines())

    def wait(self, patience=30):
        """Returns the exit status and what is reported on standard error, once the server ends by itself."""
        return self.process.wait(patience), self.reports()

    def __enter__(self):
        return self

    def __exit__(self, *_):
        if self.process.poll() is None:
            self.process.kill()
            self.process.wait()
        self.errors.close()
        self.folder.cleanup()


def everything(peer):
    """Returns what a connection gives up to its end, or until it is reset."""
    received = b''
    try:
        while more := peer.recv(65536):
            received += more
    except ConnectionResetError:
        pass
    return received


def body_of(reply):
    return reply.partition(b'\r\n\r\n')[2]


def with_body(head, body):
    """Returns a request with the lines of a head, and a body with its length."""
    return f'{head}\r\nContent-Length: {len(body)}\r\n\r\n'.encode() + body
