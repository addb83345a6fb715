#!/usr/bin/env python3
"""A session that the hub closed leaves presence at once, also if its socket is full.

A subscriber doesn't read while 200 publications of 60,000 bytes go to its channel, so that its queue overflows and it is closed
with 3008; its socket stays full. One second after the last publication it is no longer present, while those who read are.
"""
import time

from peers import LARGE, Apart, Peer, Server, run
from burst_own_node import idle_reader, read_all

COUNT = 200
WITHIN = 1.0


def present(peer, channel):
    return peer.ask({"presence": {"channel": channel}})["presence"].get("presence", {})


def attack(ready, port, seconds):
    ready()
    until = time.monotonic() + seconds
    while time.monotonic() < until:
        idle, publisher = idle_reader(port, "slow"), Peer(port)
        for _ in range(COUNT):
            publisher.publish("slow", "x" * LARGE)
        present(publisher, "slow")
        publisher.drop()
        idle.drop()


def check(program, seconds):
    with Server(program) as server:
        slow = idle_reader(server.port, "slow")
        reader = Apart(read_all, server.port, "slow", COUNT)
        asker = Peer(server.port)
        before = len(present(asker, "slow"))
        for _ in range(COUNT):
            asker.publish("slow", "x" * LARGE)
        fault = reader.result()
        began = time.monotonic()
        while (still := slow.client in present(asker, "slow")) and time.monotonic() < began + WITHIN:
            time.sleep(0.02)
        gone = time.monotonic() - began
        code = slow.until_closed(10)
    said = f"still present {WITHIN:.0f} s later" if still else f"gone from presence {gone:.2f} s later"
    return not still and code == 3008 and before == 2 and not fault, f"closed with {code}, and {said}; the one who read: {fault or 'all in order'}"


if __name__ == "__main__":
    run(check, 0)
