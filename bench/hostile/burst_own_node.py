#!/usr/bin/env python3
"""A burst closes no reader who reads.

One client writes 900 publishes of 1,100 bytes at once, and then 200 of 60,000. Three readers of its node, who read all the time,
get all in order and stay; one who doesn't read is closed with 3008. So many runs of each.
"""
import time

from peers import LARGE, SMALL_ROOM, Apart, Closed, Peer, Server, frame, pushed, run

BURSTS = [(900, 1_100), (200, LARGE)]
READERS = 3


def read_all(ready, port, channel, count, seconds=30):
    """What is wrong with what a reader gets, if anything is."""
    peer = Peer(port)
    peer.subscribe(channel)
    ready()
    for offset in range(1, count + 1):
        try:
            found = pushed(peer.next(seconds) or {}, channel)
        except Closed as closed:
            return f"closed with {closed.args[0]} after {offset - 1}"
        if found is None or found["offset"] != offset:
            return f"{found and found['offset']} in place of {offset}"
    return ""


def burst(port, channel, count, size):
    """Writes so many publishes of so many bytes at once, and waits for their replies."""
    peer = Peer(port)
    peer.write(frame('{"id":7,"publish":{"channel":"%s","data":"%s"}}' % (channel, "x" * size)) * count)
    for _ in range(count):
        peer.next(30)
    peer.drop()


def idle_reader(port, channel):
    """Follows a channel and doesn't read."""
    peer = Peer(port, SMALL_ROOM)
    peer.subscribe(channel)
    return peer


def one_run(server, from_port, to_port, name, count, size):
    """The faults of a run's readers."""
    readers = [Apart(read_all, to_port, name, count) for _ in range(READERS)]
    idle = idle_reader(to_port, name)
    burst(from_port, name, count, size)
    faults = [fault for fault in (reader.result() for reader in readers) if fault]
    # Fewer bytes than its socket and its queue take together close nobody.
    code = idle.until_closed(10) if count * size > 6_000_000 else None
    idle.drop()
    return faults + ([f"the one who doesn't read: {code}"] if count * size > 6_000_000 and code != 3008 else [])


def attack(ready, port, seconds):
    idle = [idle_reader(port, "burst") for _ in range(3)]
    ready()
    until = time.monotonic() + seconds
    while time.monotonic() < until:
        for count, size in BURSTS:
            burst(port, "burst", count, size)
        time.sleep(0.5)
    del idle


def tried(program, nodes, runs):
    with Server(program, nodes) as server:
        faults = []
        for number in range(runs):
            for count, size in BURSTS:
                faults += one_run(server, server.ports[0], server.ports[-1], f"b{number}.{size}", count, size)
    sizes = " and ".join(f"{count} × {size:,}" for count, size in BURSTS)
    said = f"{runs} runs of {sizes} bytes, {READERS} readers each: "
    return not faults, said + ("each has all in order, those who don't read are closed with 3008" if not faults else f"{len(faults)} faults, as {faults[0]}")


def check(program, seconds, runs):
    return tried(program, 1, runs)


if __name__ == "__main__":
    run(check, 0, runs=3)
