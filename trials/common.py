"""What several trials need."""
import errno
import os
import random
import socket
import subprocess
import sys

ROOT = os.path.dirname(os.path.dirname(os.path.abspath(__file__)))
WAIT = 120  # seconds for what is soon over on a machine that is not busy


def program():
    """Returns the path of the program: the one after --program, or the one that was built here."""
    given = sys.argv[2:3] if sys.argv[1:2] == ["--program"] else []
    for path in given or [f"{ROOT}/out/rwship", f"{ROOT}/crates/rwship/out/rwship"]:
        if os.access(path, os.X_OK):
            return os.path.abspath(path)
    sys.exit("there is no program: build it by ./build, or give its path after --program")


def free_port(host="127.0.0.1", family=socket.AF_INET):
    """Returns a port that nobody uses, below those that a system gives to connections, which could take it before its user does."""
    while True:
        port = random.randrange(10_000, 32_768)
        with socket.socket(family) as it:
            try:
                it.bind((host, port))
                return port
            except OSError as why:
                if why.errno != errno.EADDRINUSE:
                    raise


def is_listened_on(port):
    """Returns whether somebody listens on this port, without connecting to it, which a receiver would count."""
    for file in ("/proc/net/tcp", "/proc/net/tcp6"):
        if os.path.exists(file):
            with open(file, encoding="ascii") as it:
                rows = [line.split() for line in it]
            if any(row[1].endswith(f":{port:04X}") and row[3] == "0A" for row in rows[1:]):
                return True
    return False


class Different(Exception):
    """What is not as it is to be."""


# What ends a row: it differs, a process does not end, or the machine does not do what the row needs.
FAULTS = (Different, subprocess.SubprocessError, OSError)


class Rows:
    """Named rows, of which each prints a line."""

    def __init__(self, only=""):
        self.only, self.passed, self.failed = only, 0, 0

    def run(self, name, row, *words, **more):
        """Runs a row, which returns what to print, or raises why it failed."""
        if self.only not in name:
            return
        try:
            what, is_well = row(*words, **more), True
        except FAULTS as why:
            what, is_well = str(why) or type(why).__name__, False
        print(f"{'passed' if is_well else 'FAILED'}: {name}: {what}", flush=True)
        self.passed, self.failed = self.passed + is_well, self.failed + (not is_well)
