"""Starts nginx with a configuration of examples/ and asks it by curl. tests/many_stores and tests/stops use it."""
import json
import os
import re
import subprocess
from urllib.parse import quote

from nginx_site import Nginx

EXAMPLES = os.path.join(os.path.dirname(os.path.realpath(__file__)), '..', 'examples')
SUM = 'SELECT SUM(v) FROM m WHERE time >= 0 AND time < 60s GROUP BY time(1m)'


class Proxy(Nginx):
    """An nginx before stores, asked by curl. A number that is replaced stands alone."""

    def __init__(self, configuration, changes):
        super().__init__(os.path.join(EXAMPLES, configuration), '8086', changes)

    def replaced(self, text, old, new):
        text = text.replace('/run/', self.folder.name + '/')
        return re.sub(rf'(?<![0-9]){re.escape(old)}(?![0-9])', new, text)

    def listens(self):
        return self.curl('/ping').endswith(' 204')

    def curl(self, target, *words):
        """Returns the body of a reply and its status."""
        call = ['curl', '-s', '-m', '20', '-w', ' %{http_code}', *words, f'http://127.0.0.1:{self.port}{target}']
        return subprocess.run(call, stdout=subprocess.PIPE, text=True).stdout.replace('\n', '')

    def status(self, target, *words):
        return self.curl(target, *words)[-3:]

    def write_lines(self, db, lines, *words):
        return self.curl(f'/write?db={db}&precision=s', *words, '--data-binary', lines)

    def sum_in(self, db):
        """Returns the sum of the values that a database has, or the reply if there is none."""
        reply = self.curl(f'/query?db={db}&epoch=s&q={quote(SUM)}')
        try:
            return json.loads(reply.rpartition(' ')[0])['results'][0]['series'][0]['values'][0][1]
        except (KeyError, ValueError):
            return reply
