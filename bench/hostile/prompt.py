#!/usr/bin/env python3
"""What is published is pushed at once, on every node.

A client publishes every 60 milliseconds, to a channel that one client follows on its own node and one on another. A dispatcher sleeps
until it is rung for, or for half a second: if nobody rings, half of the pushes come a quarter of a second late.
"""
import time

from peers import Fails, Peer, Server, pushed, run

COUNT = 30
BETWEEN = 0.06
MOST = 0.02


def wait_for(peer, channel, number):
    """The moment at which the peer got this publication, the next one of the channel."""
    while True:
        message = peer.next()
        if message is None:
            raise Fails(f"publication {number} didn't come within ten seconds")
        publication = pushed(message, channel)
        if publication:
            if publication["data"] != number:
                raise Fails(f"publication {number} was to come, and {publication['data']} did")
            return time.monotonic()


def median_wait(publisher, follower):
    """Of so many publishes, the median of the seconds until the follower had them."""
    waits = []
    for number in range(COUNT):
        began = time.monotonic()
        publisher.send({"publish": {"channel": "prompt", "data": number}})
        waits.append(wait_for(follower, "prompt", number) - began)
        time.sleep(BETWEEN)
    return sorted(waits)[COUNT // 2]


def check(program, seconds):
    with Server(program, nodes=2) as server:
        publisher = Peer(server.ports[0])
        waits = []
        for port in server.ports:
            follower = Peer(port)
            follower.subscribe("prompt")
            waits.append(median_wait(publisher, follower))
            follower.drop()
    said = " and ".join(f"{wait * 1000:.1f} ms" for wait in waits)
    return max(waits) <= MOST, f"half of the pushes came within {said}, on the publisher's node and on the other"


if __name__ == "__main__":
    run(check, 0)
