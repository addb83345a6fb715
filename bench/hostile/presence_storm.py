#!/usr/bin/env python3
"""A frame full of presence commands in a channel of thousands holds up nobody.

1,700 presence commands in one frame, and then as many that ask for the numbers alone, whose replies all fit. No other client
waits longer than a second, and none of twenty is closed or loses anything. Two frames so in each round.
"""
import time

from peers import Apart, Peer, Server, crowd, faults_in_words, healthy, longest_ping, millis, packed, run

LIST = '{"id":1,"presence":{"channel":"all"}}'
STATS = '{"id":1,"presence_stats":{"channel":"all"}}'
LONGEST = 1.0


def storm(port, seconds, pause):
    """Sends both frames, each on a connection of its own, again and again. How many were sent."""
    until, sent = time.monotonic() + seconds, 0
    while time.monotonic() < until:
        for text in (LIST, STATS):
            peer = Peer(port)
            peer.write(packed(text))
            sent += 1
            peer.until_closed(min(pause, max(0.1, until - time.monotonic())))
            peer.drop()
    return sent


def attack(ready, port, seconds):
    members = crowd(port, 500, "all")
    ready()
    storm(port, seconds, 1)
    del members


def check(program, seconds, members):
    with Server(program) as server:
        there = crowd(server.port, members, "all")
        others = Apart(healthy, server.ports, 20, seconds)
        ping = Apart(longest_ping, server.port, seconds)
        sent = storm(server.port, seconds, 1)
        faults, _ = others.result()
        waited = ping.result()
        closed = sum(1 for peer in there if peer.until_closed(0) is not None)
    return (sent > 0 and waited <= LONGEST and not faults and not closed,
            f"{sent} frames in a channel of {members:,}, the longest wait of another {millis(waited)}, of 20 others "
            f"{faults_in_words(faults)}, of its members {closed} closed")


if __name__ == "__main__":
    run(check, 2, members=2000)
