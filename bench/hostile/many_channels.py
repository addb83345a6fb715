#!/usr/bin/env python3
"""Channels that nobody is in cost next to nothing.

Opens 600,000 channels by history commands. Each takes at most 200 bytes beside its name, the server at most 1 % of a processor while
nobody does anything, and beside them a push comes at most 50 ms after its publish. Other work on the machine only makes that longer,
so of three tries the best counts; all are said.

The server takes its memory as examples/run-serve has it: from libjemalloc2, if that is installed and ALLOCATOR isn't `libc`.
"""
import time

from memory_back import is_given_back
from peers import FRAME, TURN, Apart, Peer, Server, faults_in_words, frame, healthy, millis, run

CHANNEL = 200    # bytes of a channel at most
NAME = 24 + 32   # bytes of its name: where it stands in the table, and the smallest block of the heap
IDLE = 0.01      # of a processor
TRIES = 3


def frames(first, count):
    """Frames of history commands, each for a channel of its own."""
    text = ""
    for number in range(first, first + count):
        command = '{"id":1,"history":{"channel":"c%d"}}' % number
        if len(text) + len(command) > FRAME:
            yield frame(text)
            text = ""
        text += command
    yield frame(text)


def opened(port, first, count):
    """Opens so many channels, by one client that waits for its replies."""
    peer, done = Peer(port), 0
    for data in frames(first, count):
        peer.write(data)
        while peer.read(0.0001):
            done += len(peer.messages)
            peer.messages.clear()
    while done < count:
        peer.next()
        done += 1 + len(peer.messages)
        peer.messages.clear()
    peer.drop()


def attack(ready, port, seconds):
    """Opens 2,000 channels each tenth of a second, 200,000 in all."""
    ready()
    until, first = time.monotonic() + seconds, 0
    while time.monotonic() < until:
        opened(port, first, 2_000)
        first = (first + 2_000) % 200_000
        time.sleep(0.1)


def check(program, seconds, channels):
    library = "libjemalloc2" if is_given_back() else "the C library"
    with Server(program) as server:
        before, began = server.bytes(), time.monotonic()
        opened(server.port, 0, channels)
        took, each = time.monotonic() - began, (server.bytes() - before) / channels
        used = server.seconds()
        time.sleep(seconds)
        idle = (server.seconds() - used) / seconds
        faults, waits = [], []
        while len(waits) < TRIES and not faults and (not waits or waits[-1] > TURN):
            found, longest = Apart(healthy, server.ports, 20, seconds).result()
            faults, waits = faults + found, waits + [longest]
    holds = not faults and each <= CHANNEL + NAME and idle <= IDLE and min(waits) <= TURN
    return holds, (f"{channels:,} channels in {took:.1f} s, {each - NAME:.0f} bytes of {library}'s each beside the name's {NAME}, {idle * 100:.2f} % of a processor "
                   f"while idle, publish to push at most {', '.join(map(millis, waits))}, of 20 clients {faults_in_words(faults)}")


if __name__ == "__main__":
    run(check, 5, channels=600_000)
