"""The rows of trials/real-servers: a log that `send` ships to a server, and what the server holds then."""
import base64
import copy
import json
import os
import re
import subprocess
import time
from collections import namedtuple

import over_folder
from common import WAIT, Different
from messages import STALE, value_of, word_of
from relay import Relay
from servers import Influx, Prometheus, Victoria, version_of

WINDOW = "storage: {tsdb: {out_of_order_time_window: 1d}}\n"
HOUR_MS = 3_600_000
BATCH = 100
# basic authentication of the user `trial` with the password `secret`
PASSWORD = "Basic " + base64.b64encode(b"trial:secret").decode()
USERS = 'basic_auth_users: {trial: "$2b$04$abcdefghijklmnopqrstuu2r9OfJnfCsdneAXAGHnS4UpFFP8WIrW"}\n'
# values that are hard to keep: each is all values of one of the first series
ODD = [word_of(float(it)) for it in ("nan", "inf", "-inf", "-0.0", "5e-324", "0.1", "9007199254740994", "1e308")]
ODD_TEXTS = ["s\u00e4ge \U0001F600", 'a"b\\c\nd', "{}=,;", "x" * 3_000]

Report = namedtuple("Report", "status ends end dropped listed unsure said")


class Log:
    """A log of some series, as samples that rise, in the order in which it has them."""

    def __init__(self, series, rounds, every_ms, ends_ms, name="trial", odd=tuple(ODD)):
        self.labels, self.odd = [self.labels_of(name, at) for at in range(series)], odd
        first_ms = ends_ms - (rounds - 1) * every_ms
        self.samples = [(at, first_ms + every_ms * turn, self.word(at, turn)) for turn in range(rounds) for at in range(series)]

    @staticmethod
    def labels_of(name, at):
        more = [("text", ODD_TEXTS[at])] if at < len(ODD_TEXTS) else []
        return tuple(sorted([("__name__", name), ("at", str(at)), *more]))

    def word(self, at, turn):
        if at < len(self.odd):
            return self.odd[at]
        return STALE if at == len(self.odd) and turn % 10 == 9 else word_of(float(turn))

    def write(self, program, folder, upto=None):
        """Writes the first samples into the first segment of a folder."""
        os.makedirs(folder, exist_ok=True)
        quoted = lambda text: text.replace("\\", "\\\\").replace('"', '\\"').replace("\n", "\\n")
        lines = [f"series {at + 1} {{{','.join(f'{name}={chr(34)}{quoted(value)}{chr(34)}' for name, value in labels)}}}\n" for at, labels in enumerate(self.labels)]
        lines += [f"sample {at + 1} {time} 0x{word:016x}\n" for at, time, word in self.samples[:upto]]
        for name in os.listdir(folder):
            os.remove(f"{folder}/{name}")
        subprocess.run([program, "log", "--dir", folder], input="".join(lines).encode(), check=True, timeout=WAIT)

    def after(self, count):
        """Returns the log without its first samples."""
        rest = copy.copy(self)
        rest.samples = self.samples[count:]
        return rest

    def held(self):
        found = {labels: [] for labels in self.labels}
        for at, time, word in self.samples:
            found[self.labels[at]].append((time, word))
        return found


def settings_text(shards, batch, more=""):
    return (f"[send]\nbatch = {batch}\nshards = {shards}\nmin_shards = {shards}\nmax_shards = {shards}\n"
            f"min_backoff_ms = 10\nmax_backoff_ms = 100\n{more}")


class Trial:
    """Ships logs to one server, and judges each report by what the server held before and holds then."""

    def __init__(self, program, server, relay=None):
        self.program, self.server, self.relay, self.room = program, server, relay, server.folder
        self.held, self.listed, self.unsure, self.repeated, self.lost = {}, 0, 0, 0, 0

    def report(self, folder, shards=4, batch=BATCH, options=("--snappy",), settings=""):
        """Runs `send` over a folder, and returns its report."""
        with open(f"{self.room}/settings.toml", "w", encoding="utf-8") as it:
            it.write(settings_text(shards, batch, settings))
        address = f"http://127.0.0.1:{self.relay.address if self.relay else self.server.port}{self.server.path}"
        words = [self.program, "send", "--explain", "--settings", f"{self.room}/settings.toml", "--dir", folder, "--to", address, *options]
        ran = subprocess.run(words, stdin=subprocess.DEVNULL, capture_output=True, timeout=WAIT, check=False)
        said, lines = ran.stderr.decode(errors="replace"), ran.stdout.decode().splitlines()
        ends = re.fullmatch(r"report (complete|abandoned) (\d+)", lines[-1] if lines else "")
        if not ends:
            raise Different(f"status {ran.returncode}: {lines[-1:]}, {said[-400:]!r}")
        dropped, abandoned = ({int(it.split()[1]) for it in lines if it.startswith(word)} for word in ("dropped ", "abandoned "))
        unsure = re.search(r"unsure: (\d+) of the samples", said)
        return Report(ran.returncode, ends[1], int(ends[2]), dropped, dropped | abandoned, int(unsure[1]) if unsure else 0, said)

    def ship(self, log, upto=None, **how):
        """Ships the first samples of a log, and counts; each that the server does not hold then has to be listed or not read."""
        log.write(self.program, f"{self.room}/shipped", upto)
        ran, before = self.report(f"{self.room}/shipped", **how), self.held
        self.held, first, newly = self.server.holds(), len(log.labels), 0
        now = {labels: dict(each) for labels, each in self.held.items()}
        for at, (of, time, word) in enumerate(log.samples[:upto]):
            is_listed, labels = first + at in ran.listed, log.labels[of]
            for _, kept in self.server.keeps({labels: [(time, word)]})[labels]:
                is_held, was_held = now.get(labels, {}).get(time) == kept, any(it[0] == time for it in before.get(labels, []))
                if not is_held and not is_listed and first + at < ran.end:
                    raise Different(f"{dict(labels)} at {time} is not listed, and the server has {now.get(labels, {}).get(time)} in place of {kept}")
                self.lost += not is_held
                self.repeated += is_listed and is_held and was_held
                newly += is_listed and is_held and not was_held
        if newly > ran.unsure:
            raise Different(f"{newly} samples are listed as dropped that the server holds now and did not before, but {ran.unsure} are unsure")
        self.listed, self.unsure = self.listed + len(ran.listed), self.unsure + ran.unsure
        return ran

    def judge(self, *logs, each=1, may_lose=False, may_drop=True):
        """Returns what to print, or raises what the server lacks, has more than these logs, or has more often than so."""
        wanted = {labels: samples for log in logs for labels, samples in self.server.keeps(log.held()).items()}
        for labels, samples in self.held.items():
            more = [it for it in samples if it not in wanted.get(labels, []) or samples.count(it) > each]
            if more:
                raise Different(f"the server holds {more[0]} of {dict(labels)}, which was not sent, or not so often")
        said = f"{self.relay.refused} answered 503, {self.relay.lost} replies lost, " if self.relay else ""
        said += f"{self.listed} of {sum(len(log.samples) for log in logs)} samples listed as dropped"
        said += f", {self.unsure} of them unsure" if self.unsure else ""
        said += f", {self.repeated} held before the run" if self.repeated else ""
        said += f", {self.lost} not held and each listed" if self.lost else "; all held"
        if self.lost and not may_lose or self.listed and not may_drop:
            raise Different(said)
        if self.relay and (self.relay.refuses_every and not self.relay.refused or self.relay.loses_every and not self.relay.lost):
            raise Different(f"{said}: too few requests")
        return said


class ServerRows:
    """The rows of one kind of server."""

    def __init__(self, rows, program, room, kind, of_server):
        self.rows, self.program, self.room, self.kind, self.of_server = rows, program, room, kind, of_server
        # (a VictoriaMetrics does not export what is as new as the question)
        self.now_ms = int(time.time() * 1000) - 10_000

    def run(self, name, steps, *words, **fates):
        """Runs a row over a new server, and a relay if requests or replies are to fail."""
        self.rows.run(f"{self.kind}: {name}", self.played, steps, words, fates)

    def played(self, steps, words, fates):
        server, relay = self.of_server(self.room, *words), None
        try:
            relay = Relay(server.port, **fates) if fates else None
            return steps(Trial(self.program, server, relay))
        finally:
            if relay:
                relay.end()
            server.end()

    def log(self, odd=tuple(ODD)):
        return Log(20, 100, 5_000, self.now_ms, odd=odd)

    def once(self, log=None, may_drop=False, may_lose=False, each=1, runs=1, **how):
        """Steps that ship a log, or ship it again."""
        def steps(trial):
            made = log or self.log()
            for _ in range(runs):
                trial.ship(made, **how)
            return trial.judge(made, each=each, may_drop=may_drop, may_lose=may_lose)
        return steps

    def grown(self, may_lose=False, **how):
        """Steps that ship half of a log, and then all of it."""
        def steps(trial):
            made = self.log()
            trial.ship(made, upto=len(made.samples) * 6 // 10 + 30, **how)
            trial.ship(made, **how)
            return trial.judge(made, may_lose=may_lose)
        return steps

    def beside_newer(self, hours, ends_h=0, may_lose=False, **how):
        """Steps that ship hours of log to a server that holds newer samples."""
        def steps(trial):
            newer = Log(1, 2, 1_000, self.now_ms, "newer", odd=())
            older = Log(5, hours * 120, 30_000, self.now_ms - ends_h * HOUR_MS, odd=())
            trial.ship(newer)
            trial.ship(older, **how)
            return trial.judge(newer, older, may_lose=may_lose)
        return steps

    def one_too_old(self, may_lose=False, **how):
        """Steps that ship batches which each have a sample that is hours older than the others."""
        def steps(trial):
            log = Log(20, 100, 5_000, self.now_ms, odd=())
            log.samples = [(at, time - 3 * HOUR_MS * (at == 0), word) for at, time, word in log.samples]
            trial.ship(Log(1, 2, 1_000, self.now_ms, "newer", odd=()))
            trial.ship(log, shards=1, batch=20, **how)
            return trial.judge(log, Log(1, 2, 1_000, self.now_ms, "newer", odd=()), may_lose=may_lose)
        return steps

    def resumed(self, **how):
        """Steps that ship a log with --resume again and again as it grows: nothing is sent twice, so nothing is refused."""
        def steps(trial):
            log, folder, ran = self.log(), f"{trial.room}/shipped", []
            count, options = len(log.samples), ("--snappy", "--resume", f"{trial.room}/position")
            for upto in (count // 3, count // 3, count // 2, count // 2 + 1, count):
                log.write(trial.program, folder, upto)
                ran.append(trial.report(folder, options=options, **how))
            trial.held = trial.server.holds()
            said = f"{[len(it.dropped) for it in ran]} of {count} samples listed as dropped"
            if any(it.status or it.dropped for it in ran):
                raise Different(f"{said}, statuses {[it.status for it in ran]}: {ran[-1].said[-400:]!r}")
            over_folder.same_samples("the server holds", trial.held, trial.server.keeps(log.held()))
            return f"{said}; all held"
        return steps

    def refused(self, status, options=(), settings=""):
        """Steps whose run ends at the first refusal, with a line that names the status."""
        def steps(trial):
            log = self.log()
            ran = trial.ship(log, options=(*options, "--stop-on-refusal"), settings=settings)
            if ran.status != 4 or f"answered {status}" not in ran.said or trial.held or len(ran.dropped) > 4 * BATCH:
                raise Different(f"status {ran.status}, {len(ran.dropped)} samples are dropped, {sum(map(len, trial.held.values()))} held: {ran.said[-400:]!r}")
            return f"ended with status 4, {len(ran.dropped)} of {len(log.samples)} samples dropped"
        return steps


def has_option(program, option):
    """Returns whether this program's `send` has the option, and says so if it has not."""
    said = subprocess.run([program, "help", "send"], capture_output=True, timeout=WAIT, check=True).stdout.decode()
    if option not in said:
        print(f"passed over: `send` has no {option}")
    return option in said


def behind_password(room):
    """Starts a Prometheus that asks for a password."""
    with open(f"{room}/users.yml", "w", encoding="ascii") as it:
        it.write(USERS)
    return Prometheus(room, "", f"--web.config.file={room}/users.yml", password=PASSWORD)


def from_checkpoint(program, room):
    """Ships the log of a Prometheus that has written a checkpoint, to another one."""
    first, second = Prometheus(room, "", "--storage.tsdb.wal-compression"), None
    try:
        log = Log(5, 600, 30_000, int(time.time() * 1000), odd=())
        filled, wal = Trial(program, first), f"{first.folder}/data/wal"
        for part in 100, 110, 120, 130, 600:
            filled.ship(log, upto=5 * part, shards=1) if part == 100 else filled.ship(log.after(5 * last), upto=5 * (part - last), shards=1)
            first.stop()
            first.start()
            last = part
        ends = time.time() + WAIT
        while not any(re.fullmatch(r"checkpoint\.\d+", it) for it in os.listdir(wal)) and time.time() < ends:
            time.sleep(0.2)
        since = json.loads(over_folder.answer(first.port, "/api/v1/status/tsdb"))["data"]["headStats"]["minTime"]
        second = Prometheus(room)
        trial = Trial(program, second)
        ran = trial.report(wal, shards=1, options=("--snappy", "--checkpoint", "--wal-compression"))
        held, wanted = second.holds(), first.holds()
        more = [labels for labels, samples in held.items() if not set(samples) <= set(wanted.get(labels, []))]
        less = [labels for labels, samples in wanted.items() if not {it for it in samples if it[0] >= since} <= set(held.get(labels, []))]
        said = f"{sorted(os.listdir(wal))}: {sum(map(len, held.values()))} of {len(log.samples)} samples held, {len(ran.listed)} listed as dropped"
        if more or less or ran.listed or not held or ran.ends != "complete":
            raise Different(f"{said}; {len(more)} label sets have more and {len(less)} less than the first server")
        return said
    finally:
        first.end()
        if second:
            second.end()


def run_prometheus(rows, program, room):
    it = ServerRows(rows, program, room, "Prometheus", Prometheus)
    hours = Log(5, 360, 30_000, it.now_ms, odd=())
    it.run("one shard", it.once(shards=1))
    it.run("every third request answered 503", it.once(), refuses_every=3)
    it.run("every fourth reply lost", it.once(may_drop=True), loses_every=4)
    it.run("every third request answered 503, and every fourth reply lost", it.once(may_drop=True), refuses_every=3, loses_every=4)
    it.run("every fourth reply lost, with a window", it.once(), WINDOW, loses_every=4)
    it.run("a second run", it.once(may_drop=True, runs=2))
    it.run("a second run, with a window", it.once(runs=2), WINDOW)
    it.run("a second run over a log that has grown, one sample a request", it.grown(batch=1))
    it.run("a second run over a log that has grown, with a window", it.grown(), WINDOW)
    it.run("3 hours of log, one shard", it.once(hours, shards=1))
    it.run("3 hours of log, every seventh request answered 503, with a window", it.once(hours), WINDOW, refuses_every=7)
    unbounded = ("--snappy",)
    if has_option(program, "--max-skew"):
        unbounded = ("--snappy", "--max-skew", "1d")
        it.run("3 hours of log, every seventh request answered 503, --max-skew", it.once(hours, options=("--snappy", "--max-skew", "30m")), refuses_every=7)
        it.run("3 hours of log, every seventh request answered 503, the bound of --snappy", it.once(hours), refuses_every=7)
    it.run("3 hours of log beside a newer sample, with a window", it.beside_newer(3), WINDOW)
    it.run("a sample of each batch is too old, with a window", it.one_too_old(), WINDOW)
    if has_option(program, "--resume"):
        it.run("five runs over a log that grows, --resume", it.resumed())
        it.run("five runs over a log that grows, --resume, every third request answered 503", it.resumed(), refuses_every=3)
    it.run("bodies of at most 2,000 bytes", it.once(options=("--snappy", "--max-batch-bytes", "2000")))
    it.run("samples older than the window, --give-up", it.beside_newer(1, 48, may_lose=True, options=("--snappy", "--give-up", "2s")), WINDOW)
    rows.run("Prometheus: the log of a server that has written a checkpoint", from_checkpoint, program, room)
    it.run("without --snappy, --stop-on-refusal", it.refused(400))
    locked = ServerRows(rows, program, room, "Prometheus with a password", behind_password)
    locked.run("send.headers", it.once(settings=f'[send.headers]\nAuthorization = "{PASSWORD}"\n'))
    locked.run("no send.headers, --stop-on-refusal", it.refused(401, ["--snappy"]))
    it.run("without a window: a second run over a log that has grown", it.grown(may_lose=True))
    it.run("without a window: 3 hours of log, every seventh request answered 503", it.once(hours, may_drop=True, may_lose=True, options=unbounded), refuses_every=7)
    it.run("without a window: 3 hours of log beside a newer sample", it.beside_newer(3, may_lose=True, shards=1))
    it.run("without a window: a sample of each batch is too old", it.one_too_old(may_lose=True, options=unbounded))


def run_victoria(rows, program, room):
    it = ServerRows(rows, program, room, "VictoriaMetrics", Victoria)
    once = "-dedup.minScrapeInterval=1ms"
    it.run("one shard", it.once(shards=1))
    it.run("every fourth request answered 503", it.once(), refuses_every=4)
    it.run("every fourth reply lost", it.once(each=9), loses_every=4)
    it.run("every fourth reply lost, with -dedup", it.once(), once, loses_every=4)
    it.run("a second run", it.once(runs=2, each=2))
    it.run("a second run, with -dedup", it.once(runs=2), once)
    it.run("a second run over a log that has grown, with -dedup", it.grown(), once)
    it.run("3 hours of log beside a newer sample", it.beside_newer(3))
    it.run("a sample of each batch is too old", it.one_too_old())
    it.run("without --snappy, --stop-on-refusal", it.refused(400))


def run_influx(rows, program, room):
    it = ServerRows(rows, program, room, "InfluxDB", Influx)
    log = it.log(tuple(word for word in ODD if abs(value_of(word)) != float("inf")))
    it.run("one shard", it.once(log, shards=1))
    it.run("every fourth request answered 503", it.once(log), refuses_every=4)
    it.run("every fourth reply lost, and a second run", it.once(log, runs=2), loses_every=4)
    it.run("3 hours of log beside a newer sample", it.beside_newer(3))
    it.run("without --snappy, --stop-on-refusal", it.refused(400))
    it.run("infinities, which it refuses", it.once(may_drop=True, may_lose=True, batch=1))


def run_all(rows, program, room):
    """Runs the rows of each server that is installed."""
    for name, command, run in (("Prometheus", "prometheus", run_prometheus), ("VictoriaMetrics", "victoria-metrics", run_victoria), ("InfluxDB", "influxd", run_influx)):
        version = version_of(command)
        print(f"{name} {version}" if version else f"no {name} is installed (Debian: {command}): it is passed over", flush=True)
        if version:
            run(rows, program, room)
