#!/usr/bin/env python3
"""A ping is late only if its client is: a pong that lies in the socket counts.

The server pings after 25 seconds and wants the answer within 8. Right after that ping its process is stopped for 10 seconds, as a
busy machine might do. Clients that answered meanwhile must not be closed; those that never answer must be, with 3012.
"""
import os
import signal
import time

from peers import Fails, Peer, Server, run

PAUSE = 10
PINGED = 35     # seconds within which the first ping must have come


def first_pings(peers):
    """Reads until each has had its ping; those who answer have answered then."""
    until, left = time.monotonic() + PINGED, set(peers)
    while left:
        if time.monotonic() > until:
            raise Fails(f"{len(left)} of {len(peers)} clients had no ping within {PINGED} seconds")
        for peer in list(left):
            peer.read(0.001)
            if peer.pinged:
                left.discard(peer)


class Pinged(Peer):
    """Notes that a ping came, which is answered a little later: when the server is stopped."""
    pinged = False

    def hear(self, kind, payload):
        if kind == 1 and payload == b"{}":
            self.pinged = True
        else:
            super().hear(kind, payload)


def attack(ready, port, seconds):
    """Clients that never answer a ping."""
    ready()
    until = time.monotonic() + seconds
    peers = [Pinged(port) for _ in range(20)]
    while time.monotonic() < until:
        for peer in peers:
            peer.read(0.01)


def check(program, seconds, clients):
    with Server(program) as server:
        faithful, silent = [Pinged(server.port) for _ in range(clients)], [Pinged(server.port) for _ in range(3)]
        first_pings(faithful + silent)
        os.kill(server.process.pid, signal.SIGSTOP)
        for peer in faithful:
            peer.write(b"\x81\x82\0\0\0\0{}")
        time.sleep(PAUSE)
        os.kill(server.process.pid, signal.SIGCONT)
        codes = [peer.until_closed(seconds / len(faithful)) for peer in faithful]
        others = [peer.until_closed(10) for peer in silent]
        wrong = [code for code in codes if code is not None]
        for peer in faithful:
            if peer.code is None:
                peer.ask({"ping": {}})
    return (not wrong and others == [3012] * 3,
            f"stopped for {PAUSE} seconds behind the ping: of {clients} that answered {len(wrong)} closed{f' with {wrong[0]}' if wrong else ''}, "
            f"of 3 that didn't {sum(code == 3012 for code in others)} closed with 3012")


if __name__ == "__main__":
    run(check, 4, clients=20)
