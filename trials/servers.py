"""Servers that take Remote-Write, each started in a folder of its own, and what they hold."""
import itertools
import json
import re
import shutil
import signal
import subprocess
import sys
import tempfile
import time
import urllib.parse
import urllib.request

import over_folder
from common import WAIT, free_port, is_listened_on
from messages import remote_read, value_of, without_sign_of_zero, word_of


def version_of(command):
    """Returns the version of an installed program, as it or Debian's package says, or its path; None if there is none."""
    path = shutil.which(command)
    if path is None:
        return None
    package = "victoria-metrics" if command == "vmagent" else "influxdb" if command == "influxd" else command
    for words in ([path, "version" if command == "influxd" else "--version"], ["dpkg-query", "-W", "-f", "${Version}", package] if path.startswith("/usr/bin/") else ["true"]):
        said = subprocess.run(words, capture_output=True, timeout=WAIT, check=False)
        found = re.search(rb"\d+\.\d+\.\d+", said.stdout + said.stderr)
        if found:
            return found[0].decode()
    return path


class Server:
    """A server that is started in a folder of its own, and asked by its own API."""

    def __init__(self, room):
        self.folder, self.port, self.process = tempfile.mkdtemp(dir=room), free_port(), None
        self.log = f"{self.folder}/log"

    def begin(self, *words):
        with open(self.log, "ab") as it:
            self.process = subprocess.Popen(words, stdin=subprocess.DEVNULL, stdout=it, stderr=it)
        ends = time.time() + WAIT
        while not is_listened_on(self.port) and self.process.poll() is None and time.time() < ends:
            time.sleep(0.05)

    def stop(self):
        """Stops it in order."""
        self.process.send_signal(signal.SIGTERM)
        self.process.wait(WAIT)

    def end(self):
        if self.process and self.process.poll() is None:
            self.process.kill()
            self.process.wait()


class Prometheus(Server):
    """A Prometheus that is written to."""

    path = "/api/v1/write"

    def __init__(self, room, configuration="", *options, password=None):
        super().__init__(room)
        self.options, self.password = options, password
        with open(f"{self.folder}/prometheus.yml", "w", encoding="ascii") as it:
            it.write(configuration)
        self.start()

    def start(self):
        self.begin("prometheus", f"--config.file={self.folder}/prometheus.yml", f"--storage.tsdb.path={self.folder}/data", "--web.enable-remote-write-receiver",
                   f"--web.listen-address=127.0.0.1:{self.port}", "--log.level=warn", *self.options)
        if not self.password:
            over_folder.wait_until_ready(self.port, self.process, self.log)

    def holds(self):
        return remote_read(self.port, self.password)

    keeps = staticmethod(without_sign_of_zero)


class Victoria(Server):
    """A VictoriaMetrics, which keeps twelve digits of a value, no sign of a zero, and of NaNs only markers of staleness."""

    path = "/api/v1/write"
    turns = itertools.count()

    def __init__(self, room, *options):
        super().__init__(room)
        self.begin("victoria-metrics", f"-httpListenAddr=127.0.0.1:{self.port}", f"-storageDataPath={self.folder}/data", "-retentionPeriod=100y", "-loggerLevel=ERROR", *options)

    def holds(self):
        # (what came last can be asked for once it is flushed)
        over_folder.answer(self.port, "/internal/force_flush")
        # (it remembers for a while which series an earlier question has found)
        said = over_folder.answer(self.port, "/api/v1/export", **{"match[]": '{__name__!="",__name__!="%d"}' % next(self.turns)})
        found = {}
        for line in said.decode().splitlines():
            it = json.loads(re.sub(r"(?<=[\[,])\+?(-?)Inf(?=[,\]])", r"\1Infinity", line))
            values = [float("nan" if value is None else value) for value in it["values"]]
            found[tuple(sorted(it["metric"].items()))] = [(time, f"{value:.12g}") for time, value in zip(it["timestamps"], values) if value == value]
        return found

    @staticmethod
    def keeps(samples):
        values = lambda each: [(time, value_of(word)) for time, word in each]
        return {labels: [(time, f"{value:.12g}" if abs(value) > sys.float_info.min else "0") for time, value in values(each) if value == value] for labels, each in samples.items()}


class Influx(Server):
    """An InfluxDB, which keeps no NaN, and refuses a request with an infinity."""

    path = "/api/v1/prom/write?db=trial"

    def __init__(self, room):
        super().__init__(room)
        with open(f"{self.folder}/influxdb.conf", "w", encoding="ascii") as it:
            it.write(f"reporting-disabled = true\nbind-address = \"127.0.0.1:{free_port()}\"\n[http]\nbind-address = \"127.0.0.1:{self.port}\"\n"
                     f"[meta]\ndir = \"{self.folder}/meta\"\n[data]\ndir = \"{self.folder}/data\"\nwal-dir = \"{self.folder}/wal\"\n[monitor]\nstore-enabled = false\n")
        self.begin("influxd", "-config", f"{self.folder}/influxdb.conf")
        self.query("CREATE DATABASE trial")

    def query(self, text):
        words = urllib.parse.urlencode({"db": "trial", "epoch": "ms", "q": text}).encode()
        with urllib.request.urlopen(f"http://127.0.0.1:{self.port}/query", words, timeout=WAIT) as it:
            return json.load(it)["results"][0].get("series", [])

    def holds(self):
        found = {}
        for it in self.query("SELECT value FROM /.*/ GROUP BY *"):
            labels = tuple(sorted((name, value) for name, value in it["tags"].items() if value))
            found[labels] = [(time, word_of(float(value))) for time, value in it["values"]]
        return without_sign_of_zero(found)

    @staticmethod
    def keeps(samples):
        numbers = {labels: [it for it in each if value_of(it[1]) == value_of(it[1])] for labels, each in samples.items()}
        return without_sign_of_zero(numbers)
