"""Runs what the units of dist/ run, without systemd: over a log that grows, and loses segments."""
import os
import re
import shlex
import shutil
import signal
import subprocess
import sys
import time
import urllib.request

from common import WAIT, free_port, is_listened_on

SERIES = b'series 1 {__name__="up"}\n'
REPORT = "filtered 0\nreport complete %d\n"


def instance(unit, environment, folder, values):
    """Returns the variables and the commands of the instance `a` of a unit, whose folders are in this folder."""
    places = {"%S": f"{folder}/state", "%t": f"{folder}/run", "%i": "a", "%%": "%"}
    settings = [(name, re.sub("%.", lambda it: places[it[0]], value)) for name, value in re.findall(r"(?m)^(Environment|ExecStart(?:Pre)?)=(.*)$", unit)]
    variables = dict(word.split("=", 1) for name, value in settings if name == "Environment" for word in value.split())
    variables.update(re.findall(r"(?m)^(\w+)=(.*)$", environment))
    variables.update(values)
    return variables, [shlex.split(value.replace("$$", "$")) for name, value in settings if name != "Environment"]


class Services:
    """One instance of each unit, whose folders are in a folder.

    `words` makes a command of words, as they are run where the program is: there each path below
    `root` is without it.
    """

    def __init__(self, room, units, environments, root="", words=lambda *it: it, program="rwship"):
        self.room, self.units, self.environments, self.root, self.words, self.program = room, units, environments, root, words, program
        self.listen, self.pages, self.running = free_port(), {"send": free_port(), "receive": free_port()}, []
        self.starts = 0
        for name in ("wal", "other", "copy", *(f"{it}/rwship-{side}/a" for it in ("state", "run") for side in ("send", "receive"))):
            os.makedirs(f"{root}{room}/{name}")

    def path(self, name):
        return f"{self.root}{self.room}/{name}"

    def put_segment(self, number, text):
        ran = subprocess.run(self.words(self.program, "log"), input=text, stdout=subprocess.PIPE, check=True, timeout=WAIT)
        with open(self.path(f"wal/{number:08}"), "wb") as file:
            file.write(ran.stdout)

    def start(self, side, **values):
        """Starts a side as its unit does, with the example of its environment file and these values."""
        values = {"METRICS": f"127.0.0.1:{self.pages[side]}", **values}
        variables, commands = instance(self.units[side], self.environments[side], self.room, values)
        name, self.starts = self.path(f"{side}-{self.starts}"), self.starts + 1
        words = ["env", *(f"{it}={value}" for it, value in variables.items())]
        for command in commands[:-1]:
            subprocess.run(self.words(*words, *command), check=True, timeout=WAIT)
        with open(f"{name}.out", "wb") as out, open(f"{name}.err", "wb") as errors:
            process = subprocess.Popen(self.words(*words, *commands[-1]), stdin=subprocess.DEVNULL, stdout=out, stderr=errors)
        self.running.append(process)
        return process, name

    def start_receive(self):
        started = self.start("receive", LISTEN=f"127.0.0.1:{self.listen}")
        wait_until(lambda: is_listened_on(self.listen) or started[0].poll() is not None, "the receiver listens")
        return started

    def start_send(self, wal="wal"):
        time.sleep(1)  # a report is named after the second in which its run has begun
        return self.start("send", WAL=f"{self.room}/{wal}", TO=f"127.0.0.1:{self.listen}")

    def position(self):
        """Returns the number of the segment that the file `position` names, if it is there."""
        path = self.path("state/rwship-send/a/position")
        return re.search(r"\nsegment (\d+)\n", text_of(path))[1] if os.path.exists(path) else None

    def report(self):
        """Returns the last report."""
        folder = self.path("state/rwship-send/a")
        return text_of(f"{folder}/{max(it for it in os.listdir(folder) if it.startswith('report-'))}")

    def end(self):
        for process in self.running:
            if process.poll() is None:
                process.kill()
            process.wait()


def text_of(path):
    with open(path, encoding="utf-8") as file:
        return file.read()


def wait_until(is_so, what):
    begun = time.monotonic()
    while not is_so():
        if time.monotonic() - begun > WAIT:
            sys.exit(f"services: gave up after {WAIT} s of waiting until {what}")
        time.sleep(0.1)


def stop(started):
    """Stops a side as systemd does, and returns its status."""
    started[0].send_signal(signal.SIGTERM)
    return started[0].wait(WAIT)


def try_sender(services, judge):
    """The sender ships a log, goes on at its position, and says what is gone."""
    def judge_run(name, status, entries, position):
        seen = (status, services.report(), services.position())
        judge(f"rwship-send@ {name}", seen == (0, REPORT % entries, position), repr(seen))

    def run_to(position):
        started = services.start_send()
        wait_until(lambda: services.position() == position or started[0].poll() is not None, f"the position is segment {position}")
        return stop(started)

    services.put_segment(0, SERIES + b"sample 1 1000 1\n")
    services.put_segment(1, b"sample 1 2000 1\n")
    judge_run("ships the log, and keeps its position", run_to("1"), 3, "1")
    services.put_segment(2, b"sample 1 3000 1\n")
    # The definition of the series, and the sample of segment 2.
    judge_run("started again goes on at its position", run_to("2"), 2, "2")
    for number in (1, 2):
        os.remove(services.path(f"wal/{number:08}"))
    services.put_segment(4, b"sample 1 5000 1\n")
    started = services.start_send()
    wait_until(lambda: "are gone" in text_of(f"{started[1]}.err") or started[0].poll() is not None, "the sender says what is gone")
    seen = (stop(started), services.report(), f"segments 2 to 3 are gone from {services.room}/wal" in text_of(f"{started[1]}.err"))
    judge("rwship-send@ names segments that are gone, and ships the others", seen == (4, REPORT % 2, True), repr(seen))
    process, name = services.start_send("other")
    seen = (process.wait(WAIT), "give the right FILE, or remove it" in text_of(f"{name}.err"), services.position())
    judge("rwship-send@ refuses another WAL while there is a position", seen == (1, True, "4"), repr(seen))


def try_services(services, judge):
    """Both units: what is shipped is in the receiver's folder, once."""
    receive = services.start_receive()
    try_sender(services, judge)
    with urllib.request.urlopen(f"http://127.0.0.1:{services.pages['receive']}/metrics", timeout=WAIT) as reply:
        page = reply.read().decode()
    judge("rwship-receive@ lets old samples go from memory", "\nrwship_receive_samples_in_memory " in page)
    seen = (stop(receive), text_of(f"{receive[1]}.out"))
    judge("rwship-receive@ ends with status 0, and prints nothing", seen == (0, ""), repr(seen))
    shutil.copytree(services.path("state/rwship-receive/a/data/wal"), services.path("copy"), dirs_exist_ok=True)
    words = (services.program, "receive", "--listen", f"127.0.0.1:{free_port()}", "--until-eof", "--dir", f"{services.room}/copy")
    ran = subprocess.run(services.words(*words), stdin=subprocess.DEVNULL, stdout=subprocess.PIPE, stderr=subprocess.PIPE, timeout=WAIT)
    held = b'received {__name__="up"} 1000=1 2000=1 3000=1 5000=1\n'
    judge("the folder of rwship-receive@ has each sample once", (ran.returncode, ran.stdout) == (0, held), ran.stdout.decode())
