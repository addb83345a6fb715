#!/usr/bin/env python3
"""A client that sends without pause takes no more than its turns.

It writes frames of 60,000 bytes, each one publish to a channel that nobody follows, as fast as the server takes them. No other
client of its node waits longer than 50 ms for a turn. Other work on the machine only makes a wait longer, so of three tries the
best counts; all are said.
"""
import time

from peers import LARGE, TURN, Apart, Peer, Server, frame, longest_ping, millis, run

TRIES = 3


def storm(port, seconds):
    """Writes for so long, and gives how many frames."""
    until, count = time.monotonic() + seconds, 0
    data = frame('{"id":1,"publish":{"channel":"nobody","data":"%s"}}' % ("x" * LARGE))
    peer = Peer(port)
    while time.monotonic() < until and peer.code is None:
        peer.write(data)
        count += 1
        if count % 64 == 0:
            peer.read(0)
            peer.messages.clear()
    peer.drop()
    return count


def attack(ready, port, seconds):
    ready()
    until = time.monotonic() + seconds
    while time.monotonic() < until:
        storm(port, until - time.monotonic())


def check(program, seconds):
    waits, count = [], 0
    for _ in range(TRIES):
        with Server(program) as server:
            ping = Apart(longest_ping, server.port, seconds)
            count += storm(server.port, seconds)
            waits.append(ping.result())
        if waits[-1] <= TURN:
            break
    return count > 0 and min(waits) <= TURN, f"{count:,} frames of 60,000 bytes; the longest wait of another was {', '.join(map(millis, waits))}"


if __name__ == "__main__":
    run(check, 1)
