#!/usr/bin/env python3
"""After a close nothing of the frame is carried out.

A channel holds 100 publications of 60,000 bytes. A client asks for its history 1,456 times in one frame, and publishes behind the
first: the first reply doesn't fit and closes it with 3008. The publish must reach nobody and take no offset, no other client
waits longer than a second, and none of twenty is closed or loses anything.
"""
import time

from peers import FRAME, LARGE, Apart, Peer, Server, faults_in_words, fill, frame, healthy, longest_ping, millis, run

HISTORY = '{"id":1,"history":{"channel":"a","limit":-1}}'
BEHIND = '{"id":2,"publish":{"channel":"behind","data":0}}'
LONGEST = 1.0


def one_frame():
    rest = (FRAME - len(HISTORY) - len(BEHIND)) // len(HISTORY)
    return frame(HISTORY + BEHIND + HISTORY * rest)


def storm(port, seconds, pause=5, patience=10):
    """Sends such a frame on a new connection again and again, and gives the codes of their closes, each of which is waited for so long."""
    until, codes = time.monotonic() + seconds, []
    while time.monotonic() < until:
        peer = Peer(port)
        peer.write(one_frame())
        codes.append(peer.until_closed(patience))
        peer.drop()
        time.sleep(max(0, min(pause, until - time.monotonic())))
    return codes


def attack(ready, port, seconds):
    fill(port, "a", 100, LARGE)
    ready()
    storm(port, seconds, 1, 1)


def check(program, seconds):
    with Server(program) as server:
        fill(server.port, "a", 100, LARGE)
        watcher = Peer(server.port)
        watcher.subscribe("behind")
        others = Apart(healthy, server.ports, 20, seconds)
        ping = Apart(longest_ping, server.port, seconds)
        codes = storm(server.port, seconds)
        faults, _ = others.result()
        waited = ping.result()
        watcher.publish("behind", 1)
        first = watcher.next()["push"]["pub"]
    clean = first["offset"] == 1 and first["data"] == 1
    holds = clean and not faults and waited <= LONGEST and set(codes) == {3008}
    behind = "reached nobody" if clean else f"was carried out (then {first})"
    return holds, (f"closed with {codes}, the publish behind {behind}, the longest wait of another {millis(waited)}, "
                   f"of 20 others {faults_in_words(faults)}")


if __name__ == "__main__":
    run(check, 2)
