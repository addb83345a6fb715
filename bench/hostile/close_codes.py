#!/usr/bin/env python3
"""Whoever is closed sees the code of the close, whatever it has sent behind.

A client sends a connect command with an unknown token, right behind it 2, 3, 20, 200 and 1,000 small commands in the same write, and
one more a little later; it is told 3500 each time. A message of 200,000 bytes is told 3501. Frames that RFC 6455 doesn't allow are
told 1002, text that isn't UTF-8 1007, each with 3,000 bytes more behind it. The client answers each close by its own. A code counts as
seen only if no write and no read of the client was refused up to the end of the connection: a client whose connection is reset may lose
what had come before.

With `--pong 1` also a client that never answers a ping and goes on sending: it is told 3012 (35 seconds more).
"""
import time

from peers import Server, connected, frame, frames_in, handshake, run, text_of

TOKENS = ("--tokens", "right=user")
BEHIND = (2, 3, 20, 200, 1000)
SMALL = '{"id":2,"ping":{}}'


def sends(kind, payload, mask=True, size=None):
    """The bytes of a frame with this first byte, whatever it is; `size` is said in its head in place of its own."""
    head = bytes([kind, (0x80 if mask else 0) | (len(payload) if size is None else size)])
    return head + (bytes(4) if mask else b"") + payload


# Each in words, its bytes, and the code that it is told.
FRAMES = [
    ("a reserved bit", sends(0xC1, b"{}"), 1002),
    ("a reserved opcode for data", sends(0x83, b"{}"), 1002),
    ("a reserved opcode for control", sends(0x8B, b""), 1002),
    ("no mask", sends(0x81, b"{}", mask=False), 1002),
    ("a ping in parts", sends(0x09, b"x"), 1002),
    ("a ping of 126 bytes", frame(b"x" * 126, 0x89), 1002),
    ("a continuation of nothing", sends(0x80, b"{}"), 1002),
    ("a text within another", sends(0x01, b"{") + sends(0x81, b"}"), 1002),
    ("a close of one byte", sends(0x88, b"\x03"), 1002),
    ("a close with a code that may not be sent", sends(0x88, (1005).to_bytes(2, "big")), 1002),
    ("a text that is no UTF-8", sends(0x81, b'{"\xff"}'), 1007),
    ("a text whose second part is none", sends(0x01, b'{"') + sends(0x80, b'\xc3("}'), 1007),
    ("a close whose reason is none", sends(0x88, (1000).to_bytes(2, "big") + b"\xff"), 1007),
    ("a message of 200,000 bytes", frame(b"x" * 200_000), 3501),
]


def first_close(data):
    """The code of the first close frame that the server sent in these bytes, behind the head of its answer; None without one."""
    behind = data[data.find(b"\r\n\r\n") + 4:]
    return next((int.from_bytes(payload[:2], "big") for kind, payload, _ in frames_in(behind) if kind == 8), None)


def told(port, data, later=frame(SMALL), seconds=10):
    """What a client is told that sends these bytes behind its handshake, and `later` a little later: the code of the close, or in words
    why it didn't see one."""
    socket = connected(port)
    got = b""
    try:
        socket.sendall(handshake())
        while b"\r\n\r\n" not in got:
            got += socket.recv(65_536)
        socket.sendall(data)
        time.sleep(0.02)
        socket.sendall(later)
        socket.settimeout(seconds)
        is_answered = False
        while part := socket.recv(65_536):
            got += part
            if not is_answered and first_close(got):
                socket.sendall(frame(first_close(got).to_bytes(2, "big"), 0x88))
                is_answered = True
    except TimeoutError:
        return "no end"
    except OSError as why:
        return f"{type(why).__name__} behind {first_close(got)}"
    finally:
        socket.close()
    return first_close(got)


def refused(count):
    """A connect with an unknown token, and so many small commands behind it."""
    return frame(text_of({"id": 1, "connect": {"token": "wrong"}})) + frame(SMALL) * count


def attack(ready, port, seconds):
    """Who is closed and goes on sending, again and again."""
    ready()
    until = time.monotonic() + seconds
    while time.monotonic() < until:
        told(port, refused(200))
        for _, data, _ in FRAMES:
            told(port, data + frame(SMALL) * 200)


def unanswered(port):
    """A client that answers no ping, and sends a small command every tenth of a second: what it is told within 40 seconds. (Of one that sends
    16,384 bytes in a second the answer may have had no room in the socket, and so it isn't late.)"""
    socket = connected(port)
    got, due = b"", time.monotonic()
    socket.sendall(handshake() + frame(text_of({"id": 1, "connect": {"token": "right"}})))
    until = due + 40
    try:
        while due < until:
            socket.sendall(frame(SMALL))
            due += 0.1
            while (left := due - time.monotonic()) > 0:
                part = heard(socket, left)
                if part == b"":
                    return first_close(got)
                got += part or b""
    except OSError as why:
        return f"{type(why).__name__} behind {first_close(got)}"
    return "no end"


def heard(socket, seconds):
    """What comes within so many seconds; None if nothing does."""
    socket.settimeout(seconds)
    try:
        return socket.recv(65_536)
    except TimeoutError:
        return None


def check(program, seconds, tries, pong):
    faults, seen = [], 0
    with Server(program, 1, TOKENS) as server:
        for count in BEHIND:
            codes = [told(server.port, refused(count)) for _ in range(tries)]
            seen += codes.count(3500)
            faults += [f"{count} commands behind: {code}" for code in codes if code != 3500]
        for words, data, code in FRAMES:
            found = told(server.port, data + frame(SMALL) * 200)
            if found != code:
                faults.append(f"{words}: {found} for {code}")
        if pong:
            found = unanswered(server.port)
            if found != 3012:
                faults.append(f"no pong: {found} for 3012")
    told_all = f"3500 seen {seen} of {tries * len(BEHIND)} times"
    return not faults, f"{told_all}; {len(FRAMES)} frames are told their code" if not faults else f"{told_all}; " + "; ".join(faults[-20:])


if __name__ == "__main__":
    run(check, 0, tries=12, pong=0)
