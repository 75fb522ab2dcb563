"""The servers that bench/peer measures: `tsdb serve`, InfluxDB and VictoriaMetrics, each with an empty store in a
folder of its own."""
import http.client
import os
import signal
import subprocess
import sys
import tempfile
import time

HERE = os.path.dirname(os.path.realpath(__file__))
sys.path.insert(0, os.path.join(HERE, '..', 'tests'))
from served import OPEN_SETTINGS, free_port

TICKS = os.sysconf('SC_CLK_TCK')
BEGIN = 1_600_000_020  # seconds: a whole minute of 2020, since VictoriaMetrics stores no times near 1970
INFLUXDB = """reporting-disabled = true
bind-address = "127.0.0.1:{other}"
[meta]
dir = "{folder}/meta"
[data]
dir = "{folder}/data"
wal-dir = "{folder}/wal"
query-log-enabled = false
[monitor]
store-enabled = false
[http]
bind-address = "127.0.0.1:{port}"
log-enabled = false
"""


class Peer:
    """A server that is started at once and ended with its folder."""

    speaks = 'InfluxQL'

    def __init__(self, program):
        self.program = program
        self.room = tempfile.TemporaryDirectory()
        self.folder = self.room.name
        self.port = free_port()
        self.prepare()
        self.start()

    def prepare(self):
        pass

    def start(self):
        self.process = subprocess.Popen(
            self.call(), stdin=subprocess.DEVNULL, stdout=subprocess.DEVNULL, stderr=subprocess.DEVNULL
        )
        self.pid = self.process.pid
        for _ in range(3000):
            try:
                return self.is_asked_first()
            except (ConnectionError, http.client.HTTPException):
                time.sleep(0.01)
        sys.exit(f'bench/peer: {self.call()[0]} does not listen')

    def is_asked_first(self):
        ask(self, 'GET', '/ping')

    def flush(self):
        """Lets what was written be found by queries."""

    def save(self):
        """Lets all be on disk, and ends the server."""
        self.process.send_signal(signal.SIGTERM)
        self.process.wait()

    def restart(self):
        self.start()

    def disk(self):
        files = (os.path.join(at, name) for at, _, names in os.walk(self.folder) for name in names)
        return sum(os.stat(file).st_blocks * 512 for file in files) / 1e6

    def megabytes(self):
        """Returns the peak of its memory."""
        with open(f'/proc/{self.pid}/status') as file:
            return next(int(line.split()[1]) for line in file if line.startswith('VmHWM')) / 1024

    def __enter__(self):
        return self

    def __exit__(self, *_):
        self.process.kill()
        self.process.wait()
        self.room.cleanup()


class Tsdb(Peer):
    def prepare(self):
        with open(f'{self.folder}/settings', 'w', encoding='utf8') as file:
            file.write(OPEN_SETTINGS)

    def call(self):
        return [self.program, 'serve', f'{self.folder}/settings', f'{self.folder}/image', str(self.port), '0']

    def save(self):
        ask(self, 'POST', '/maintain?steps=0')
        ask(self, 'GET', '/ping')
        super().save()


class Influxdb(Peer):
    def prepare(self):
        with open(f'{self.folder}/conf', 'w', encoding='utf8') as file:
            file.write(INFLUXDB.format(folder=self.folder, port=self.port, other=free_port()))

    def call(self):
        return ['influxd', '-config', f'{self.folder}/conf']

    def is_asked_first(self):
        ask(self, 'POST', '/query?q=CREATE+DATABASE+x')


class Victoria(Peer):
    """It drops what is older than its retention, which is a hundred years here."""

    speaks = 'MetricsQL'

    def call(self):
        return [
            'victoria-metrics',
            f'-storageDataPath={self.folder}',
            f'-httpListenAddr=127.0.0.1:{self.port}',
            '-retentionPeriod=100y',
        ]

    def is_asked_first(self):
        ask(self, 'GET', '/health')

    def flush(self):
        ask(self, 'GET', '/internal/force_flush')


KINDS = {'tsdb': (Tsdb, None), 'InfluxDB': (Influxdb, 'influxd'), 'VictoriaMetrics': (Victoria, 'victoria-metrics')}


def ask(server, method, target, body=None):
    """Sends a request on a connection of its own, and returns the body of the reply."""
    connection = http.client.HTTPConnection('127.0.0.1', server.port, timeout=600)
    connection.request(method, target, body)
    response = connection.getresponse()
    text = response.read()
    connection.close()
    if response.status not in (200, 204):
        sys.exit(f'bench/peer: {method} {target[:80]} is answered by {response.status} {text[:200]}')
    return text


def seconds(server):
    """Returns the processor time that a server has taken, in seconds."""
    with open(f'/proc/{server.pid}/stat') as file:
        fields = file.read().rpartition(')')[2].split()
    return (int(fields[11]) + int(fields[12])) / TICKS


def lines_of(kind, count, unit=1):
    """Returns the lines that bench/make writes, without their command, with times in units of some nanoseconds, counted
    from BEGIN."""
    made = subprocess.run(
        [os.path.join(HERE, 'make'), kind, str(count)], capture_output=True, check=True, text=True
    ).stdout
    lines = (line.removeprefix('write ').rpartition(' ') for line in made.splitlines())
    return [f'{fields} {10**9 * BEGIN + unit * int(time)}'.encode() for fields, _, time in lines]


def replay_time(program, script, rounds):
    """Returns the best processor time of a script."""
    times = []
    for _ in range(rounds):
        with tempfile.TemporaryFile() as file:
            file.write(script)
            file.seek(0)
            process = subprocess.Popen([program, 'replay'], stdin=file, stdout=subprocess.DEVNULL)
            usage = os.wait4(process.pid, 0)[2]
            process.returncode = 0
            times.append(usage.ru_utime + usage.ru_stime)
    return min(times)


def row(*cells):
    print('| ' + ' | '.join(cells) + ' |', flush=True)
