"""A WebSocket client over a plain socket, which answers the server's pings, and what it is made of."""
import base64
import collections
import json
import os
import socket
import time

from program import Closed, Fails

FRAME = 65_536      # bytes of one frame at most


def frame(text, kind=0x81):
    """The bytes of one masked frame (RFC 6455, 5.2), whose mask is 0."""
    data = text if isinstance(text, bytes) else text.encode()
    if len(data) < 126:
        head = bytes([kind, 0x80 | len(data)])
    elif len(data) < 1 << 16:
        head = bytes([kind, 0xFE]) + len(data).to_bytes(2, "big")
    else:
        head = bytes([kind, 0xFF]) + len(data).to_bytes(8, "big")
    return head + bytes(4) + data


def text_of(command):
    return json.dumps(command, separators=(",", ":"))


def frames_in(data):
    """The kind and the payload of each frame that is whole, and where it ends."""
    at = 0
    while len(data) - at >= 2:
        size, start = data[at + 1] & 0x7F, at + 2
        if size >= 126:
            width = 2 if size == 126 else 8
            size, start = int.from_bytes(data[start:start + width], "big"), start + width
        if len(data) < start + size:
            break
        kind, payload, at = data[at] & 0x0F, bytes(data[start:start + size]), start + size
        yield kind, payload, at


def packed(text, first="", most=FRAME):
    """One frame with `first`, and behind it a text as often as there is room."""
    return frame(first + text * ((most - len(first)) // len(text)))


def handshake(path="/"):
    key = base64.b64encode(os.urandom(16)).decode()
    return (f"GET {path} HTTP/1.1\r\nHost: localhost\r\nUpgrade: websocket\r\nConnection: Upgrade\r\n"
            f"Sec-WebSocket-Key: {key}\r\nSec-WebSocket-Version: 13\r\n\r\n").encode()


def connected(port, room=None):
    """A socket that is connected, with a receive buffer of about so many bytes."""
    made = socket.socket()
    if room:
        made.setsockopt(socket.SOL_SOCKET, socket.SO_RCVBUF, room)
    made.settimeout(20)
    made.connect(("127.0.0.1", port))
    made.setsockopt(socket.IPPROTO_TCP, socket.TCP_NODELAY, 1)
    return made


class Peer:
    """One WebSocket connection, which sends its connect command and answers pings as they are read. Without `waits` it has sent its
    handshake and no more."""
    path = "/"

    def __init__(self, port, room=None, waits=True):
        self.socket = self.connect(port, room)
        self.bytes, self.shaken = bytearray(), False
        self.messages = collections.deque()  # that have come, and that nobody has looked at
        self.code = None                     # of its close; 0 if the connection ended without one
        self.last_id, self.client = 0, None
        self.write(handshake(self.path))
        if waits:
            self.introduce()
            self.greet()

    def connect(self, port, room):
        return connected(port, room)

    def introduce(self, timeout=20):
        """Waits for the answer to the handshake, and sends the connect command."""
        until = time.monotonic() + timeout
        while not self.shaken:
            if self.code is not None:
                raise Closed(self.code)
            if time.monotonic() > until:
                raise Fails(f"the handshake had no answer within {timeout} seconds")
            self.read(until - time.monotonic())
        self.send({"connect": {}})

    def greet(self, timeout=20):
        """Waits for the reply to the connect command."""
        self.client = self.reply(1, timeout)["connect"]["client"]

    def fileno(self):
        return self.socket.fileno()

    def drop(self):
        """Loses the connection without a close."""
        self.socket.close()

    def write(self, data):
        try:
            self.socket.settimeout(60)
            self.socket.sendall(data)
        except OSError:
            self.end(0)

    def end(self, code):
        if self.code is None:
            self.code = code

    def send(self, command):
        """Sends a command in a frame of its own, and gives its id."""
        self.last_id += 1
        self.write(frame(text_of({"id": self.last_id, **command})))
        return self.last_id

    def read(self, timeout):
        """Reads once what is there within so many seconds. Whether there was anything."""
        if self.code is not None:
            return False
        try:
            self.socket.settimeout(max(0, timeout))
            data = self.socket.recv(1 << 20)
        except (BlockingIOError, TimeoutError):
            return False
        except OSError:
            data = b""
        if not data:
            self.end(0)
            return False
        self.bytes += data
        self.split()
        return True

    def split(self):
        """Puts the messages that have come whole behind the others."""
        if not self.shaken:
            head, end, rest = self.bytes.partition(b"\r\n\r\n")
            if not end:
                return
            if not head.startswith(b"HTTP/1.1 101"):
                raise Fails(f"the handshake was answered {bytes(head[:60])!r}")
            self.shaken, self.bytes = True, rest
        at = 0
        for kind, payload, at in frames_in(self.bytes):
            self.hear(kind, payload)
        del self.bytes[:at]

    def hear(self, kind, payload):
        if kind == 8:
            self.end(int.from_bytes(payload[:2], "big"))
        elif kind == 1 and payload == b"{}":
            self.write(frame("{}"))
        elif kind == 1:
            self.messages.append(json.loads(payload))

    def next(self, timeout=10):
        """The next message, or None if none comes in time; `Closed` if the connection is over."""
        until = time.monotonic() + timeout
        while not self.messages:
            if self.code is not None:
                raise Closed(self.code)
            left = until - time.monotonic()
            if left <= 0:
                return None
            self.read(left)
        return self.messages.popleft()

    def reply(self, number, timeout=10):
        """The reply of this id. What else comes before it stays, in order."""
        others, until = [], time.monotonic() + timeout
        try:
            while True:
                message = self.next(until - time.monotonic())
                if message is None:
                    raise Fails(f"no reply within {timeout} seconds")
                if message.get("id") == number:
                    return message
                others.append(message)
        finally:
            self.messages.extendleft(reversed(others))

    def ask(self, command, timeout=10):
        """Sends a command, and gives its reply, which is to be no error."""
        answer = self.reply(self.send(command), timeout)
        if "error" in answer:
            raise Fails(f"{text_of(command)[:80]} was answered {text_of(answer)}")
        return answer

    def ask_all(self, commands, at_once, timeout=60):
        """Sends commands, so many at a time, and gives the replies to all. Nothing else is to come meanwhile, and no error."""
        replies = []
        for first in range(0, len(commands), at_once):
            some = range(self.last_id + 1, self.last_id + 1 + len(commands[first:first + at_once]))
            self.write(b"".join(frame(text_of({"id": number, **command})) for number, command in zip(some, commands[first:])))
            self.last_id, until = some[-1], time.monotonic() + timeout
            while len(replies) < first + len(some):
                message = self.next(until - time.monotonic())
                if message is None or message.get("id") not in some or "error" in message:
                    raise Fails(f"{text_of(commands[0])[:80]}: {len(replies)} of {len(commands)} were answered; then {text_of(message)}")
                replies.append(message)
        return replies

    def subscribe(self, channel, **more):
        return self.ask({"subscribe": {"channel": channel, **more}})["subscribe"]

    def publish(self, channel, data):
        self.ask({"publish": {"channel": channel, "data": data}})

    def until_closed(self, timeout):
        """Reads on to the end of the connection, and gives its code; None if it goes on."""
        until = time.monotonic() + timeout
        while self.code is None and time.monotonic() < until:
            self.read(until - time.monotonic())
        return self.code
