"""Pages that a sender scrapes: numbers of scrapes, values that are hard, own times, targets that fail, histograms."""
import contextlib
import http.server
import math
import re
import struct
import threading
import time
from collections import Counter

from messages import field, put_uvarint

SERIES = 50
TEXT = "text/plain; version=0.0.4"
OPEN_METRICS = "application/openmetrics-text; version=1.0.0; charset=utf-8"
PROTOBUF = "application/vnd.google.protobuf; proto=io.prometheus.client.MetricFamily; encoding=delimited"


def numbers(turn):
    """50 series whose value is the number of the scrape, with exemplars, a type and a help."""
    rows = "".join(f'trial_total{{at="{at}"}} {turn} # {{trace_id="{at}"}} 1\n' for at in range(SERIES))
    return f"# HELP trial A number.\n# TYPE trial counter\n{rows}# EOF\n", OPEN_METRICS


def odd(turn):
    """Values and texts that are hard to keep, a counter that is reset, and series that come and go."""
    texts = ["s\u00e4ge", "a\\nb", 'q\\"q', "b\\\\s", "{}=,;", "\U0001F600", "L" * 3_000]
    values = ["+Inf", "-Inf", "NaN", "-0", "5e-324", "9007199254740993", "0.1"]
    rows = [f'odd{{text="{text}",empty=""}} {turn}\n' for text in texts] + [f'odd_value{{at="{at}"}} {value}\n' for at, value in enumerate(values)]
    rows += [f'moving{{i="{at}",zone="z{at % 7}"}} {math.sin(turn + at) * 10 ** (at % 40 - 20)!r}\n' for at in range(SERIES)]
    rows += [f'with:colon{{a_b="1",A="2",_x="3"}} {turn}\n', f'churn{{of="{turn // 3}"}} {turn}\n', f"# TYPE reset_total counter\nreset_total {turn % 9}\n"]
    return "".join(rows), TEXT


def times(turn):
    """Samples with times of their own: late ones, ones that repeat a time with another value, and ones that go back."""
    now = int(time.time() * 1000)
    rows = [f'own_time{{of="late",at="{at}"}} {turn} {now - 1_500}\n' for at in range(5)]
    rows += [f'own_time{{of="same",at="{at}"}} {turn // 2} {now // 10_000 * 10_000}\n' for at in range(5)]
    rows += [f'own_time{{of="back",at="{at}"}} {turn} {now - (4_000 if turn % 4 == 3 else 0)}\n' for at in range(5)]
    return "".join(rows) + f"beside {turn}\n", TEXT


def failing(turn):
    """A target that fails in two of five scrapes, so that its series become stale."""
    return None if turn % 5 > 2 else ("".join(f'failing{{at="{at}"}} {turn}\n' for at in range(10)), TEXT)


def limits(turn):
    """Series with more labels, and with longer ones, than a receiver takes by default."""
    many = ",".join(f'l{at:02}="x"' for at in range(70))
    return f'many_labels{{{many}}} {turn}\nlong_label{{text="{"y" * 20_000}"}} {turn}\nin_limits {turn}\n', TEXT


def dots(turn):
    """A name that is not legacy, which vmagent takes."""
    return f"dotted.name {turn}\nunderscored_name {turn}\n", TEXT


def native(turn):
    """A native histogram, as protobuf."""
    number = lambda at, value: put_uvarint(at * 8) + put_uvarint(value)
    double = lambda at, value: put_uvarint(at * 8 + 1) + struct.pack("<d", value)
    counts = [turn, 2 * turn, 3 * turn]
    deltas = [count - before for count, before in zip(counts, [0, *counts])]
    histogram = number(1, sum(counts)) + double(2, turn * 0.7) + number(5, 0) + double(6, 1e-9) + number(7, 0) + field(12, number(1, 0) + number(2, 3))
    histogram += b"".join(number(13, delta << 1) for delta in deltas)
    family = field(1, b"native_seconds") + field(2, b"A histogram.") + number(3, 4) + field(4, field(1, field(1, b"code") + field(2, b"200")) + field(7, histogram))
    return put_uvarint(len(family)) + family, PROTOBUF


PAGES = {it.__name__: it for it in (numbers, odd, times, failing, limits, dots, native)}


class Pages:
    """Serves these pages, and counts how often each was asked for."""

    def __init__(self):
        pages = self

        class Handler(http.server.BaseHTTPRequestHandler):
            def do_GET(self):
                name = re.sub(r"\W.*", "", self.path[1:])
                pages.counts[name] += 1
                page = PAGES[name](pages.counts[name])
                body, kind = page or (b"", TEXT)
                body = body.encode() if isinstance(body, str) else body
                self.send_response(200 if page else 500)
                self.send_header("Content-Type", kind)
                self.send_header("Content-Length", str(len(body)))
                with contextlib.suppress(OSError):  # (a sender that is killed takes no more)
                    self.end_headers()
                    self.wfile.write(body)

            def log_message(self, *_):
                pass

        self.counts = Counter()
        self.server = http.server.ThreadingHTTPServer(("127.0.0.1", 0), Handler)
        self.port = self.server.server_address[1]
        threading.Thread(target=self.server.serve_forever, daemon=True).start()

    def end(self):
        self.server.shutdown()
        self.server.server_close()

    def scrapes(self, names, every):
        """Returns the lines of a configuration that scrape these pages, and a target that is not there."""
        # (a vmagent takes the times of a page only if it is told to)
        jobs = [f"- {{job_name: {name}, metrics_path: /{name}, honor_timestamps: true, static_configs: [{{targets: ['127.0.0.1:{self.port}']}}]}}" for name in names]
        jobs.append("- {job_name: dead, static_configs: [{targets: ['127.0.0.1:9']}]}")
        return f"global: {{scrape_interval: {every}s, scrape_timeout: {every}s}}\nscrape_configs:\n" + "\n".join(jobs) + "\n"
