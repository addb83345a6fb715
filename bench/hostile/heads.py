#!/usr/bin/env python3
"""A head is waited for, and no longer than it may be.

One connection sends 16,384 bytes of a head without a blank line, and is dropped at once, with no answer. Another sends its head in
three pieces, a tenth of a second apart, and its first frame in one write with the last of them: it is shaken hands with and answered.
A third sends one byte less than the longest head, and is answered. What is no handshake is told so, and dropped once it was read: bytes
that are no request, with 200,000 more behind them, by 400, and a request without an upgrade by 426. `/health` is answered by 200, for
`HEAD` without the word, and for any other method by 405, which names those two.
"""
import time

from peers import Peer, Server, connected, frame, handshake, run, text_of

LONGEST = 16_384
HELLO = frame(text_of({"id": 1, "connect": {}}))


def head_of(count):
    """A head of so many bytes, which ends as a head does."""
    whole = handshake()
    start, end = whole[:-2], whole[-2:]
    filler = b"X-Filler: "
    return start + filler + b"x" * (count - len(start) - len(filler) - 2 - len(end)) + b"\r\n" + end


def answer(port, pieces, pause=0.1, seconds=5):
    """What a connection gets that sends these pieces: the bytes, and whether it was ended."""
    socket = connected(port)
    got, ended = b"", False
    try:
        for piece in pieces:
            socket.sendall(piece)
            time.sleep(pause)
        socket.settimeout(seconds)
        while b'"connect"' not in got:
            data = socket.recv(65_536)
            if not data:
                ended = True
                break
            got += data
    except TimeoutError:
        pass
    except OSError:
        ended = True
    socket.close()
    return got, ended


def is_answered(got):
    return got.startswith(b"HTTP/1.1 101 ") and b'"connect":{"client":' in got


# What a request gets that opens no WebSocket: the words, the request, how the answer begins and how it ends.
TOLD = [
    ("no request, and more behind it", b"no request\r\n\r\n" + b"x" * 200_000, b"HTTP/1.1 400 ", b"\r\n\r\nbad request\n"),
    ("a request without an upgrade", b"GET / HTTP/1.1\r\nHost: x\r\n\r\n", b"HTTP/1.1 426 ", b"\r\n\r\nupgrade required\n"),
    ("the health", b"GET /health HTTP/1.0\r\n\r\n", b"HTTP/1.1 200 ", b"\r\n\r\nok"),
    ("HEAD /health", b"HEAD /health HTTP/1.1\r\nHost: x\r\n\r\n", b"HTTP/1.1 200 ", b"\r\nContent-Length: 2\r\nConnection: close\r\n\r\n"),
    ("POST /health", b"POST /health HTTP/1.1\r\nHost: x\r\nContent-Length: 4\r\n\r\nwell", b"HTTP/1.1 405 Method Not Allowed\r\nAllow: GET, HEAD\r\n",
     b"\r\n\r\nmethod not allowed\n"),
    ("HEAD elsewhere", b"HEAD / HTTP/1.1\r\nHost: x\r\n\r\n", b"HTTP/1.1 400 ", b"\r\n\r\nbad request\n"),
]


def attack(ready, port, seconds):
    """Heads that are too long, come in pieces, or open nothing."""
    ready()
    until = time.monotonic() + seconds
    while time.monotonic() < until:
        answer(port, [b"GET / HTTP/1.1\r\nX: " + b"x" * (LONGEST - 19)])
        for _, request, _, _ in TOLD:
            answer(port, [request])


def check(program, seconds):
    with Server(program) as server:
        stays = Peer(server.port)
        faults = []
        got, ended = answer(server.port, [b"GET / HTTP/1.1\r\nX: " + b"x" * (LONGEST - 19)])
        if got or not ended:
            faults.append(f"16,384 bytes without a blank line: {got[:40]!r}, {'dropped' if ended else 'not dropped'}")
        whole = handshake()
        got, _ = answer(server.port, [whole[:11], whole[11:60], whole[60:] + HELLO])
        if not is_answered(got):
            faults.append(f"a head in three pieces: {got[:60]!r}")
        got, _ = answer(server.port, [head_of(LONGEST - 1) + HELLO])
        if not is_answered(got):
            faults.append(f"a head of 16,383 bytes: {got[:60]!r}")
        for words, request, begins, ends in TOLD:
            got, ended = answer(server.port, [request])
            if not (got.startswith(begins) and got.endswith(ends) and ended):
                faults.append(f"{words}: {got[:40]!r}, {'dropped' if ended else 'not dropped'}")
        stays.send({"ping": {}})
        if stays.code is not None:
            faults.append("a client beside them was closed")
    return not faults, "; ".join(faults) or "16,384 bytes without a blank line are dropped, a head in three pieces with a frame behind it is answered, so is one of 16,383 bytes; 400, 426, 405 and the health are told"


if __name__ == "__main__":
    run(check, 0)
