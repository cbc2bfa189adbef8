"""Starts a Prometheus over a copy of a folder, and asks it for each sample that it finds there."""
import json
import os
import shutil
import signal
import subprocess
import time
import urllib.parse
import urllib.request

from common import Different, free_port

WAIT = 60
YEARS = 200


def is_installed():
    return shutil.which("prometheus") is not None


def same_samples(what, found, wanted):
    """Raises what differs, if these samples of each series are not those."""
    if found == wanted:
        return
    counts = [sum(map(len, it.values())) for it in (found, wanted)]
    for name in sorted({*found, *wanted}):
        here, there = found.get(name, []), wanted.get(name, [])
        if here != there:
            at = next((at for at, (a, b) in enumerate(zip(here, there)) if a != b), min(len(here), len(there)))
            a, b = (f"{it[at][0]}={it[at][1]}" if at < len(it) else "none" for it in (here, there))
            raise Different(f"{what} {counts[0]} samples of {counts[1]}; the first that differs is number {at + 1} of {len(there)} of {name}: {a} in place of {b}")


def answer(port, path, **words):
    return urllib.request.urlopen(f"http://127.0.0.1:{port}{path}?{urllib.parse.urlencode(words)}", timeout=WAIT).read()


def samples_of(port):
    """All samples that the server has: the time and the text of the value of each, by its label set."""
    # (a range selector gives the samples as they are stored)
    said = answer(port, "/api/v1/query", query='{__name__!=""}[%dy]' % YEARS, time=100 * 365 * 86400)
    series = json.loads(said)["data"]["result"]
    return {tuple(sorted(it["metric"].items())): [(round(float(t) * 1000), value) for t, value in it["values"]] for it in series}


def wait_until_ready(port, server, log):
    """Waits until a Prometheus answers; this is what it has written to its log if it does not."""
    ends = time.time() + WAIT
    while True:
        try:
            return answer(port, "/-/ready")
        except OSError as why:
            if server.poll() is not None or time.time() > ends:
                with open(log, "rb") as it:
                    raise Different(f"a Prometheus does not answer: {why}: {it.read()[-400:]!r}") from why
        time.sleep(0.05)


def answered(folder, room, ask=samples_of):
    """Copies the folder into the room, starts a Prometheus over the copy as its log, and returns what it answers."""
    port, data, log = free_port(), f"{room}/over-folder", f"{room}/over-folder.log"
    shutil.copytree(folder, f"{data}/wal")
    words = ["prometheus", f"--config.file={os.devnull}", f"--storage.tsdb.path={data}", f"--web.listen-address=127.0.0.1:{port}", "--log.level=warn"]
    with open(log, "wb") as it:
        server = subprocess.Popen(words, stdin=subprocess.DEVNULL, stdout=it, stderr=it)
    try:
        wait_until_ready(port, server, log)
        return ask(port)
    finally:
        server.send_signal(signal.SIGKILL)
        server.wait()
        shutil.rmtree(data)
