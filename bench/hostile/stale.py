#!/usr/bin/env python3
"""Connections that never send a connect command give their places back.

With `--stale 2` 1,100 clients shake hands at 1,024 descriptors and say nothing more, a few of them half a frame; a new client gets in
within eight seconds, and each of those that got in is ended. One that is connected stays beside them. Without the option one that says
nothing stays for five seconds at least.
"""
import contextlib
import time

from peers import Fails, Peer, Server, connected, frame, handshake, run

SILENT, DESCRIPTORS = 1_100, 1_024


def silent(port, at):
    """A client that shakes hands, and says nothing or half a frame."""
    made = connected(port)
    made.sendall(handshake() + (frame("x" * 60_000)[:30_000] if at % 100 == 0 else b""))
    return made


def is_ended(made, seconds):
    """Whether the server ends a connection within so many seconds."""
    made.settimeout(seconds)
    try:
        while made.recv(65_536):
            pass
    except TimeoutError:
        return False
    except OSError:
        pass
    return True


def attack(ready, port, seconds):
    """200 clients that shake hands and say nothing, opened again every five seconds."""
    ready()
    until = time.monotonic() + seconds
    while time.monotonic() < until:
        quiet = [silent(port, at) for at in range(200)]
        time.sleep(max(0, min(5, until - time.monotonic())))
        for made in quiet:
            made.close()


def check(program, seconds):
    faults = []
    with Server(program, 1, ("--stale", "2"), DESCRIPTORS) as server:
        stays = Peer(server.port)
        quiet = [silent(server.port, at) for at in range(SILENT)]
        began, found = time.monotonic(), None
        while found is None and time.monotonic() < began + 8:
            with contextlib.suppress(Fails, OSError):
                found = Peer(server.port)
        waited = time.monotonic() - began
        if found is None:
            faults.append(f"no new client within {waited:.0f} s")
        if not all(is_ended(made, 6) for made in quiet[::50]):
            faults.append("a silent connection stays")
        stays.ask({"ping": {}})
    with Server(program) as server:
        made = silent(server.port, 1)
        if is_ended(made, 5):
            faults.append("without the option a silent connection was ended")
    return not faults, "; ".join(faults) or f"a new client got in {waited:.1f} s behind {SILENT} silent ones; without the option one stays"


if __name__ == "__main__":
    run(check, 0)
