"""A relay between a sender and a receiver, which changes no byte of a request or a reply."""
import contextlib
import random
import re
import socket
import socketserver
import threading
import time

from common import WAIT

BUSY = b"HTTP/1.1 503 Service Unavailable\r\nContent-Length: 0\r\n\r\n"


class Gone(Exception):
    """The other side has closed its connection."""


def read_message(file):
    """Reads the head and the body of a request or a reply."""
    head = b""
    while not head.endswith(b"\r\n\r\n"):
        line = file.readline()
        if not line:
            raise Gone
        head += line
    length = re.search(rb"(?i)\r\ncontent-length: *(\d+)", head)
    body = file.read(int(length[1])) if length else b""
    if length and len(body) < int(length[1]):
        raise Gone
    return head, body


class Relay(socketserver.ThreadingTCPServer):
    """Passes requests on to a port of this machine, and keeps each that was answered.

    Each `refuses_every`-th POST it answers itself with 503; of each `loses_every`-th it loses the
    reply. It waits up to `delay_s` before it passes one on. If it `is_serial`, one is passed on after
    the other, so that the receiver judges them in the order of `exchanges`.
    """

    daemon_threads = allow_reuse_address = True
    request_queue_size = 128

    def __init__(self, port, refuses_every=0, loses_every=0, delay_s=0, is_serial=False):
        super().__init__(("127.0.0.1", 0), Connection)
        self.port, self.refuses_every, self.loses_every, self.delay_s = port, refuses_every, loses_every, delay_s
        self.turn, self.at_next = threading.Lock() if is_serial else contextlib.nullcontext(), None
        self.lock, self.count, self.refused, self.lost, self.exchanges, self.slowest_s = threading.Lock(), 0, 0, 0, [], 0
        self.address = self.server_address[1]
        threading.Thread(target=self.serve_forever, daemon=True).start()

    def next_fate(self):
        """Returns whether the next POST is refused, and whether its reply is lost."""
        with self.lock:
            self.count += 1
            is_refused, is_lost = (bool(every) and self.count % every == 0 for every in (self.refuses_every, self.loses_every))
            self.refused += is_refused
            self.lost += is_lost and not is_refused
            return is_refused, is_lost

    def reply_to(self, request):
        """Passes a request on, and returns the reply."""
        with socket.create_connection(("127.0.0.1", self.port), timeout=WAIT) as to:
            to.sendall(request)
            with to.makefile("rb") as file:
                head, body = read_message(file)
        return head + body

    def pass_on(self, head, body):
        """Passes a POST on and keeps it, and returns the reply, or None if the sender gets none."""
        time.sleep(random.random() * self.delay_s)
        with self.turn:
            at_next, self.at_next = self.at_next, None
            if at_next:
                at_next(head + body)
            began = time.monotonic()
            reply = self.reply_to(head + body)
            with self.lock:
                self.slowest_s = max(self.slowest_s, time.monotonic() - began)
                self.exchanges.append((head, body, int(reply.split(b" ", 2)[1])))
        return None if at_next else reply

    def interrupt(self, what):
        """Has `what` called with the bytes of the next POST, which is then passed on; its sender gets no reply. Needs `is_serial`."""
        self.at_next = what
        ends = time.time() + WAIT
        while self.at_next and time.time() < ends:
            time.sleep(0.01)
        with self.turn:
            return self.at_next is None

    def end(self):
        self.shutdown()
        self.server_close()


class Connection(socketserver.StreamRequestHandler):
    """One connection of a sender."""

    def handle(self):
        with contextlib.suppress(OSError, Gone):
            while self.exchange():
                pass

    def exchange(self):
        """Serves one request, and returns whether the connection goes on."""
        head, body = read_message(self.rfile)
        is_refused, is_lost = self.server.next_fate() if head.startswith(b"POST") else (False, False)
        if is_refused:
            self.wfile.write(BUSY)
        else:
            reply = self.server.pass_on(head, body) if head.startswith(b"POST") else self.server.reply_to(head + body)
            if is_lost or reply is None:
                return False
            self.wfile.write(reply)
        return not is_refused and not re.search(rb"(?i)\r\nconnection: *close", head)
