#!/usr/bin/env python3
"""Connections that say nothing keep nobody out.

The server has 1,024 descriptors, and 1,100 connections are opened that say nothing. A new client gets in within 15 seconds: a
head that isn't whole 10 seconds after its accept is dropped, also if a byte of it comes each second. A client that is whole
by then stays.
"""
import threading
import time

from peers import Closed, Fails, Peer, Server, connected, handshake, run

DESCRIPTORS = 1_024
SILENT = 1_100
WITHIN = 15
HEAD = 10


def dribble(port, found):
    """Sends a byte of a head each second, and notes how long it was let."""
    stream, began = connected(port), time.monotonic()
    stream.settimeout(1)
    for byte in handshake()[:20]:
        try:
            stream.sendall(bytes([byte]))
            if stream.recv(1) == b"":
                break
        except TimeoutError:
            continue
        except OSError:
            break
    else:
        return
    found.append(time.monotonic() - began)


def new_client(port):
    """How long a new client waits for the reply to its connect command."""
    began = time.monotonic()
    peer = Peer(port, waits=False)
    try:
        peer.introduce(WITHIN)
        peer.greet(5)
    except (Fails, Closed) as why:
        raise Fails(f"a new client didn't get in within {WITHIN} seconds beside {SILENT:,} silent connections ({why})") from None
    return time.monotonic() - began


def attack(ready, port, seconds):
    """200 connections that say nothing, opened again when they are dropped."""
    ready()
    until = time.monotonic() + seconds
    while time.monotonic() < until:
        silent = [connected(port) for _ in range(200)]
        time.sleep(max(0, min(5, until - time.monotonic())))
        for stream in silent:
            stream.close()


def check(program, seconds):
    with Server(program, descriptors=DESCRIPTORS) as server:
        early, dribbled = Peer(server.port), []
        thread = threading.Thread(target=dribble, args=(server.port, dribbled), daemon=True)
        thread.start()
        time.sleep(0.2)
        silent = [connected(server.port) for _ in range(SILENT)]
        waited = new_client(server.port)
        thread.join(25)
        early.ask({"ping": {}})
        for stream in silent:
            stream.close()
    dropped = f"after {dribbled[0]:.1f} s" if dribbled else "not within 20 s"
    holds = bool(dribbled) and HEAD - 1 <= dribbled[0] <= HEAD + 3
    return holds, f"beside {SILENT:,} silent connections a new client got in after {waited:.1f} s; a head that comes byte by byte was dropped {dropped}"


if __name__ == "__main__":
    run(check, 0)
