"""Three rounds of a disk that fails behind the writes of a receiver: trials/kill-receiver --failing-disk.

The file system is ext4 on a loop device. The file of that device lies in a small file system in memory, and has holes
where the ext4 has its free blocks. Once the one in memory is full, a `write` of the receiver still succeeds, but no block
that is new to the file can be written to the device: the sync fails, or the kernel's own write-back does. The kernel then
takes the pages for written and tells the fault once, so whoever opens the file next reads from memory what is nowhere on
the device. A thin volume that is full behaves so, too.
"""
import os
import re
import shutil
import signal
import socket
import subprocess
import tempfile
import time

from common import FAULTS, Different, free_port
from over_folder import same_samples

WAIT = 60
HOSTS, FIRST, ALL = 10, range(40), range(120)
SETTINGS = "[send]\nbatch = 100\nmin_backoff_ms = 50\nmax_backoff_ms = 200\n"
TOOLS = ("mount", "umount", "mkfs.ext4", "dumpe2fs", "fallocate")
STARTS = 20  # of a receiver on a device that goes on failing


def run(*words):
    ran = subprocess.run(words, stdin=subprocess.DEVNULL, stdout=subprocess.PIPE, stderr=subprocess.STDOUT, check=False)
    if ran.returncode:
        raise OSError(f"{' '.join(words)}: {ran.stdout.decode(errors='replace').strip()}")
    return ran.stdout.decode(errors="replace")


def is_answered(port):
    """Whether a receiver answers there, as it does once it has read its folder; it listens before."""
    try:
        with socket.create_connection(("127.0.0.1", port), timeout=WAIT) as it:
            it.sendall(b"GET / HTTP/1.1\r\nConnection: close\r\n\r\n")
            return bool(it.recv(1))
    except OSError:
        return False


class Disk:
    """A file system whose new blocks cannot be written while it is full below."""

    def __init__(self, room):
        self.under, self.folder, self.copy, self.mounts = f"{room}/under", f"{room}/disk", f"{room}/copy", []
        for it in (self.under, self.folder, self.copy):
            os.mkdir(it)
        self.image, self.filler = f"{self.under}/image", f"{self.under}/filler"

    def set_up(self):
        self.mount("-t", "tmpfs", "-o", "size=64m", "rwship-trial", self.under)
        whole = f"{self.under}/whole"
        with open(whole, "wb") as it:
            it.truncate(24 << 20)
        run("mkfs.ext4", "-q", "-F", "-b", "4096", "-E", "nodiscard", "-J", "size=4", whole)
        with open(whole, "rb") as here, open(self.image, "wb") as there:
            there.write(here.read())  # (without a hole)
        os.remove(whole)
        self.mount("-t", "ext4", "-o", "loop", self.image, self.folder)

    def mount(self, *words):
        run("mount", *words)
        self.mounts.append(words[-1])

    def unmount(self, path):
        ends = time.time() + WAIT
        while True:
            try:
                run("umount", path)
                break
            except OSError:
                if time.time() > ends:
                    raise
                time.sleep(0.1)
        self.mounts.remove(path)

    def remount(self):
        """Has the kernel forget what it has in memory."""
        self.unmount(self.folder)
        self.mount("-t", "ext4", "-o", "loop", self.image, self.folder)

    def make_holes(self):
        """Takes its block from each part of the device that the file system does not use."""
        self.unmount(self.folder)
        for first, last in re.findall(r"(\d+)(?:-(\d+))?", " ".join(re.findall(r"^  Free blocks: (.*)", run("dumpe2fs", self.image), re.M))):
            count = int(last or first) - int(first) + 1
            run("fallocate", "-p", "-o", str(int(first) * 4096), "-l", str(count * 4096), self.image)
        self.mount("-t", "ext4", "-o", "loop", self.image, self.folder)

    def fill(self):
        for size in (65536, 4096):
            with open(self.filler, "ab", buffering=0) as it:
                try:
                    while it.write(bytes(size)) == size:
                        pass
                except OSError:
                    pass

    def make_room(self):
        os.remove(self.filler)

    def fail_power(self):
        """Mounts a copy of what the device has at this moment, and returns where."""
        shutil.copyfile(self.image, f"{self.copy}.image")
        self.mount("-t", "ext4", "-o", "loop", f"{self.copy}.image", self.copy)
        return self.copy

    def end(self):
        for it in self.mounts[::-1]:
            self.unmount(it)


class Round:
    """A sender, and a receiver whose folder is on such a disk."""

    def __init__(self, program, room):
        self.program, self.room, self.port, self.disk, self.started, self.kills = program, room, free_port(), Disk(room), [], 0
        self.errors = f"{room}/errors"
        with open(f"{room}/settings.toml", "w", encoding="ascii") as it:
            it.write(SETTINGS)

    def write_logs(self):
        for name, times in (("first", FIRST), ("all", ALL)):
            os.mkdir(f"{self.room}/{name}")
            lines = [f'series {host + 1} {{__name__="m",host="h{host}"}}' for host in range(HOSTS)]
            lines += [f"sample {host + 1} {1000 + 10 * t} {t}" for t in times for host in range(HOSTS)]
            subprocess.run([self.program, "log", "--dir", f"{self.room}/{name}"], input="\n".join([*lines, ""]).encode(), check=True)

    def logged(self):
        return {f"h{host}": [(1000 + 10 * t, t) for t in ALL] for host in range(HOSTS)}

    def begun(self, *words, **more):
        self.started.append(subprocess.Popen([self.program, *words], stdin=subprocess.DEVNULL, **more))
        return self.started[-1]

    def receiver(self, *more, starts=1):
        """Starts a receiver, and waits until it answers. Returns None if it does not, in this number of starts."""
        words = ["receive", "--listen", f"127.0.0.1:{self.port}", "--until-eof", "--stop-file", f"{self.room}/stop", "--quiet"]
        for _ in range(starts):
            with open(self.errors, "wb") as errors:
                it = self.begun(*words, "--dir", f"{self.disk.folder}/kept", *more, stdout=subprocess.DEVNULL, stderr=errors)
            ends = time.time() + WAIT
            while it.poll() is None and time.time() < ends:
                if is_answered(self.port):
                    return it
                time.sleep(0.01)
            time.sleep(0.2)
        return None

    def said(self):
        with open(self.errors, encoding="utf-8", errors="replace") as it:
            return it.read()

    def restarted(self, *more):
        """Starts a receiver while there is room; its first start may meet an error that the kernel has not reported yet."""
        it = self.receiver(*more, starts=3)
        if not it:
            raise Different(f"a receiver does not start though there is room again: {self.said()!r}")
        return it

    def sender(self, name):
        words = ["--settings", f"{self.room}/settings.toml", "--dir", f"{self.room}/{name}", "--to", f"127.0.0.1:{self.port}"]
        return self.begun("send", *words, stdout=subprocess.PIPE, stderr=subprocess.PIPE)

    def ended(self, sender):
        try:
            out, errors = sender.communicate(timeout=WAIT)
        except subprocess.TimeoutExpired:
            raise Different(f"the sender has not ended {WAIT} s after there was room: {self.said()!r}") from None
        if sender.returncode or not out.startswith(b"filtered 0\nreport complete"):
            raise Different(f"the sender ended with {sender.returncode}: {out[:200]!r} {errors!r}")

    def stop(self, receiver):
        with open(f"{self.room}/stop", "wb"):
            pass
        status = receiver.wait(WAIT)
        os.remove(f"{self.room}/stop")
        return status

    def kill(self, process):
        process.send_signal(signal.SIGKILL)
        process.communicate()
        self.kills += 1

    def begin(self, *more):
        """Ships the first part of the log while the disk works, and starts a receiver whose next writes need new blocks."""
        os.mkdir(f"{self.disk.folder}/kept")
        receiver = self.restarted()
        self.ended(self.sender("first"))
        self.stop(receiver)
        self.disk.make_holes()
        receiver = self.restarted(*more)
        self.ended(self.sender("first"))
        return receiver

    def held(self, folder):
        """What a receiver over this folder prints: the samples of each host."""
        with open(f"{self.room}/stop", "wb"):
            pass
        words = [self.program, "receive", "--listen", f"127.0.0.1:{free_port()}", "--until-eof", "--stop-file", f"{self.room}/stop", "--dir", folder]
        ran = subprocess.run(words, stdin=subprocess.DEVNULL, stdout=subprocess.PIPE, stderr=subprocess.PIPE, timeout=WAIT, check=False)
        os.remove(f"{self.room}/stop")
        if ran.returncode:
            raise Different(f"a receiver over the folder ended with {ran.returncode}: {ran.stderr!r}")
        found = {}
        for line in ran.stdout.decode().splitlines():
            labels, _, samples = line.partition("} ")
            found[re.search('host="(.*)"', labels)[1]] = [(int(t), int(value)) for t, value in (it.split("=") for it in samples.split())]
        return found

    def judge(self):
        """All was acknowledged; now the power fails, and the kernel forgets what it has in memory."""
        same_samples("after a power failure the disk has", self.held(f"{self.disk.fail_power()}/kept"), self.logged())
        self.disk.remount()
        same_samples("once the kernel has forgotten it, the disk has", self.held(f"{self.disk.folder}/kept"), self.logged())

    def end(self):
        for it in self.started:
            if it.poll() is None:
                it.kill()
                it.communicate()
        self.disk.end()


def failed_sync(it):
    """A sync fails; then there is room, and the receiver is started again, in order."""
    receiver = it.begin()
    it.disk.fill()
    sender = it.sender("all")
    ends = time.time() + WAIT
    while "failed" not in it.said():
        if sender.poll() is not None or time.time() > ends:
            raise Different(f"the disk does not fail: {it.said()!r}")
        time.sleep(0.05)
    it.disk.make_room()
    it.stop(receiver)
    receiver = it.restarted()
    it.ended(sender)
    it.kill(receiver)


def each_sync_fails(it):
    """The receiver ends after a failed sync, and is started again and again, while the disk goes on failing."""
    receiver = it.begin("--end-on-write-error")
    it.disk.fill()
    sender = it.sender("all")
    for _ in range(STARTS):
        ends = time.time() + WAIT
        while receiver and receiver.poll() is None and sender.poll() is None and time.time() < ends:
            time.sleep(0.05)
        if sender.poll() is not None:
            break
        if receiver and receiver.poll() is None:
            raise Different(f"the disk does not fail: {it.said()!r}")
        it.disk.fill()
        receiver = it.receiver("--end-on-write-error")
    if receiver and receiver.poll() is None:
        it.kill(receiver)
    it.disk.make_room()
    receiver = it.restarted()
    it.ended(sender)
    it.kill(receiver)


def killed_before_sync(it):
    """The receiver is killed between its write and its sync, and the kernel's own write-back fails."""
    receiver = it.begin()
    words = ["strace", "-f", "-p", str(receiver.pid), "-o", f"{it.room}/trace", "-e", "trace=fdatasync,fsync",
             "-e", "inject=fdatasync,fsync:signal=KILL:when=1"]
    with open(f"{it.room}/strace", "w+b") as said:
        tracer = subprocess.Popen(words, stdin=subprocess.DEVNULL, stdout=said, stderr=said)
        it.started.append(tracer)
        ends = time.time() + WAIT
        while b"attached" not in open(f"{it.room}/strace", "rb").read() and tracer.poll() is None and time.time() < ends:
            time.sleep(0.05)
    it.disk.fill()
    sender = it.sender("all")
    receiver.wait(WAIT)
    it.kills += 1
    subprocess.run(["sync", "-f", f"{it.disk.folder}/kept"], stderr=subprocess.DEVNULL, check=False)
    receiver = it.receiver()
    if receiver:
        it.kill(receiver)
    it.disk.make_room()
    receiver = it.restarted()
    it.ended(sender)
    it.kill(receiver)


def play(program, room, act):
    """Plays a round, and returns how many processes were killed, and what differs, if anything does."""
    it = Round(program, room)
    try:
        it.write_logs()
        it.disk.set_up()
        act(it)
        it.judge()
        return it.kills, None
    except FAULTS as what:
        return it.kills, what
    finally:
        it.end()


def why_not(room):
    """Returns why no such disk can be set up here, or None."""
    lacking = [it for it in TOOLS if not shutil.which(it)]
    if os.geteuid() or lacking:
        return "it needs root" if os.geteuid() else f"it needs {', '.join(lacking)}"
    os.mkdir(f"{room}/tried")
    disk = Disk(f"{room}/tried")
    try:
        disk.set_up()
        disk.make_holes()
    except OSError as why:
        return str(why)
    finally:
        disk.end()
    return None


def rounds(program):
    """Yields the name and the task of each round that can be played here."""
    with tempfile.TemporaryDirectory() as room:
        why = why_not(room)
        if why:
            print(f"the rounds of a failing disk are passed over: {why}", flush=True)
            return
        for number, act in enumerate((failed_sync, each_sync_fails, killed_before_sync)):
            if act is killed_before_sync and not shutil.which("strace"):
                print("the receiver is not killed before its sync: strace is not installed", flush=True)
                continue
            os.mkdir(f"{room}/{number}")
            yield act.__name__.replace("_", " "), lambda act=act, room=f"{room}/{number}": play(program, room, act)
