#!/usr/bin/env python3
"""Follows a channel through losses of its connection, by Python's standard library alone. A client in some fifty lines, beside
WebSocket's own: it was written from docs/PROTOCOL.md and RFC 6455, with nothing else at hand. Prints offset and data of each publication.

    examples/small.py 127.0.0.1 8000 news
"""
import base64
import json
import os
import random
import socket
import sys
import time


def opened(stream, host):
    """RFC 6455: the opening handshake."""
    key = base64.b64encode(os.urandom(16)).decode()
    stream.write(f"GET / HTTP/1.1\r\nHost: {host}\r\nUpgrade: websocket\r\nConnection: Upgrade\r\nSec-WebSocket-Version: 13\r\n"
                 f"Sec-WebSocket-Key: {key}\r\n\r\n".encode())
    stream.flush()
    if b" 101 " not in stream.readline():
        raise OSError("the server opens no WebSocket")
    while stream.readline() not in (b"\r\n", b""):
        pass


def send(stream, data, kind=1):
    """RFC 6455: one masked frame, a text unless it is said otherwise."""
    size = bytes([0x80 | len(data)]) if len(data) < 126 else bytes([0x80 | 126]) + len(data).to_bytes(2, "big")
    stream.write(bytes([0x80 | kind]) + size + bytes(4) + data)
    stream.flush()


def received(stream):
    """RFC 6455: the next text. A close, or an end without one, is an EOFError with its code."""
    while len(head := stream.read(2)) == 2:
        size = head[1] if head[1] < 126 else int.from_bytes(stream.read(2 if head[1] == 126 else 8), "big")
        data, kind = stream.read(size), head[0] & 15
        if kind == 8:
            raise EOFError(int.from_bytes(data[:2], "big"))
        if kind == 1:
            return data
    raise EOFError(1006)


def hear(stream):
    while (text := received(stream)) == b"{}":
        send(stream, b"{}")
    return json.loads(text)


def ask(stream, command):
    send(stream, json.dumps({"id": 1, **command}).encode())
    return hear(stream)   # one channel: no push comes while it isn't subscribed to


class Follower:
    position, asks, behind, wait = None, False, False, 0.2

    def take(self, publication):
        self.position = {**self.position, "offset": publication["offset"]}
        print(publication["offset"], json.dumps(publication["data"]), flush=True)

    def subscribe(self, stream, channel):
        self.asks = self.position is not None
        reply = ask(stream, {"subscribe": {"channel": channel, "recover": self.asks, **(self.position or {})}})
        self.asks = False
        if "error" in reply:
            raise EOFError(3004 if reply["error"].get("temporary") else reply["error"])
        result, self.wait = reply["subscribe"], 0.2
        for publication in result.get("publications", []):
            self.take(publication)
        self.position = {"epoch": result["epoch"], "offset": result.get("offset", 0)}
        print("recovered" if result.get("recovered") else "joined", self.position, file=sys.stderr, flush=True)

    def serve(self, stream, channel):
        ask(stream, {"connect": {}})
        while self.behind:
            result = ask(stream, {"history": {"channel": channel, "limit": 15, "since": self.position}}).get("history", {})
            page = result.get("publications", [])
            self.behind = bool(page) and page[0]["offset"] == self.position["offset"] + 1
            for publication in page if self.behind else []:
                self.take(publication)
            self.behind = self.behind and self.position["offset"] < result["offset"]
        self.subscribe(stream, channel)
        while True:
            push = hear(stream)["push"]
            self.take(push["pub"]) if "pub" in push else self.subscribe(stream, channel)

    def follow(self, host, port, channel):
        while True:
            try:
                with socket.create_connection((host, port), 10) as link, link.makefile("rwb") as stream:
                    opened(stream, host)
                    link.settimeout(35)
                    self.serve(stream, channel)
            except EOFError as end:
                if not isinstance(end.args[0], int) or 3500 <= end.args[0] < 4000:
                    sys.exit(f"ended: {end}")
                self.behind = self.behind or self.asks and end.args[0] == 3008
            except OSError as lost:
                print(f"away: {lost}", file=sys.stderr)
            self.asks = False
            time.sleep(self.wait * random.uniform(0.5, 1.5))
            self.wait = min(2 * self.wait, 5)


if sys.argv[1:] in (["-h"], ["--help"]):
    sys.exit(print(__doc__.strip()))
if len(sys.argv) != 4:
    sys.exit(__doc__)
Follower().follow(sys.argv[1], int(sys.argv[2]), sys.argv[3])
