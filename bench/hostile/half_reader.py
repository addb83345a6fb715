#!/usr/bin/env python3
"""A client that reads nothing is closed, and the others don't notice.

200 publications of 60,000 bytes, each behind the reply to the one before. One subscriber reads nothing, one reads a little now and
then; three read all. These get all in order; the first gets a run from the beginning and then 3008, and so does the second. Fewer publications may
fit into the sockets' buffers, and then the second isn't closed.
"""
import time

from peers import FORK, LARGE, Apart, Peer, Server, pushed, run
from burst_own_node import idle_reader, read_all

COUNT = 200


def sip(ready, port, channel, done):
    """Reads 4,096 bytes every 20 ms until all is published, and then what is left, as `drained` tells it."""
    peer = idle_reader(port, channel)
    ready()
    while not done.wait(0.02):
        peer.bytes += peer.socket.recv(4096)
    return drained(peer, channel)


def drained(peer, channel):
    """The code of a close, whether what came before it is a run from offset 1, and how many that were."""
    peer.split()
    code = peer.until_closed(10)
    offsets = [found["offset"] for found in (pushed(message, channel) for message in peer.messages) if found]
    return code, offsets == list(range(1, len(offsets) + 1)), len(offsets)


def attack(ready, port, seconds):
    idle = [idle_reader(port, "half") for _ in range(5)]
    publisher = Peer(port)
    ready()
    until = time.monotonic() + seconds
    while time.monotonic() < until:
        publisher.publish("half", "x" * LARGE)
        time.sleep(0.01)
    del idle


def check(program, seconds):
    with Server(program) as server:
        idle = idle_reader(server.port, "half")
        done = FORK.Event()
        sipping = Apart(sip, server.port, "half", done)
        readers = [Apart(read_all, server.port, "half", COUNT) for _ in range(3)]
        publisher, began = Peer(server.port), time.monotonic()
        for _ in range(COUNT):
            publisher.publish("half", "x" * LARGE)
        took = time.monotonic() - began
        done.set()
        faults = [fault for fault in (reader.result() for reader in readers) if fault]
        found = [drained(idle, "half"), sipping.result()]
    holds = not faults and all(code == 3008 and is_run for code, is_run, _ in found)
    told = ", ".join(f"{code} after {count}{'' if is_run else ', out of order'}" for code, is_run, count in found)
    return holds, (f"{COUNT} × {LARGE:,} bytes in {took:.1f} s: the one who reads nothing and the one who reads little are closed with {told}; "
                   f"three who read: {faults or 'all in order'}")


if __name__ == "__main__":
    run(check, 0)
