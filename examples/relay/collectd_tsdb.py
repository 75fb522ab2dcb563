"""A plugin of collectd's `python` plugin that writes values to a tsdb as whole numbers. No proof speaks of it.

    LoadPlugin python
    <Plugin python>
      ModulePath "/usr/share/tsdb/collectd"
      Import "collectd_tsdb"
      <Module collectd_tsdb>
        URL "http://127.0.0.1:8086/write?precision=ms"
        Scale 1000
      </Module>
    </Plugin>

Gauges are multiplied by Scale and rounded; counters are whole already. A plugin is a measurement, with the tags host,
type, instance and type_instance. Lines that no server took are kept, up to 10,000, and sent again with the next
ones."""
import time
import urllib.error
import urllib.request

import collectd

BODY = 500
MOST_KEPT = 10_000
PATIENCE = 10


class Writer:
    """Buffers lines, and posts them to the store."""

    def __init__(self):
        self.url = 'http://127.0.0.1:8086/write?precision=ms'
        self.scale = 1000
        self.interval = 5.0
        self.lines = []
        self.sent = time.monotonic()

    def configure(self, config):
        for child in config.children:
            if child.key == 'URL':
                self.url = child.values[0]
            elif child.key == 'Scale':
                self.scale = int(child.values[0])
            elif child.key == 'Interval':
                self.interval = float(child.values[0])
            else:
                collectd.warning(f'collectd_tsdb: the option {child.key} is unknown')

    def write(self, values):
        """Appends a line for a list of values, and posts if there are many or the last post is long ago."""
        if line := self.line_of(values):
            self.lines.append(line)
        if len(self.lines) >= BODY or time.monotonic() - self.sent >= self.interval:
            self.post()

    def line_of(self, values):
        """Returns the line of a list of values, or None if it has no number."""
        fields = []
        for source, value in zip(collectd.get_dataset(values.type), values.values):
            if value is None or value != value or abs(value) == float('inf'):
                continue
            whole = round(value * self.scale) if source[1] == 'gauge' else int(value)
            fields.append(f'{escaped(source[0])}={whole}i')
        if not fields:
            return None
        tags = [
            ('host', values.host),
            ('instance', values.plugin_instance),
            ('type', values.type),
            ('type_instance', values.type_instance),
        ]
        key = ''.join([escaped(values.plugin)] + [f',{name}={escaped(value)}' for name, value in tags if value])
        return f'{key} {",".join(fields)} {round(values.time * 1000)}'

    def post(self):
        """Posts the lines. They are kept if no server took them, and dropped if it refused them."""
        lines, self.lines = self.lines, []
        self.sent = time.monotonic()
        if not lines:
            return
        try:
            urllib.request.urlopen(
                urllib.request.Request(self.url, '\n'.join(lines).encode()), timeout=PATIENCE
            ).close()
        except urllib.error.HTTPError as error:
            words = error.read().decode(errors='replace')
            collectd.error(f'collectd_tsdb: {error.code} {words}')
            if error.code >= 500:
                self.keep(lines)
        except OSError as error:
            collectd.error(f'collectd_tsdb: {error}')
            self.keep(lines)

    def keep(self, lines):
        self.lines = lines[-MOST_KEPT:] + self.lines


def escaped(text):
    """Returns a name or a tag's value for line protocol."""
    return text.rstrip('\\').replace(',', '\\,').replace(' ', '\\ ').replace('=', '\\=')


WRITER = Writer()
collectd.register_config(WRITER.configure)
collectd.register_write(WRITER.write)
collectd.register_shutdown(WRITER.post)
