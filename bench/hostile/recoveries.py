#!/usr/bin/env python3
"""A client that comes back to several channels in one frame is brought back to each.

Channels hold 90 publications of 8,000 bytes each. A client asks for two of them from the beginning, in one frame, five times; then for
four, and for two channels' history behind a hundred pings: replies that each fit in a session's queue of 1,048,576 bytes, and
together don't. It reads all the while, and gets each whole, in the order of its commands, and isn't closed. Eight hundredths of a second
pass between two reads of the last one. One whose single reply doesn't fit is closed with 3008.
"""
import time

from peers import Closed, Peer, Server, frame, run, text_of

COUNT, SIZE, CHANNELS = 90, 8_000, 4


def asks(channels, epochs):
    return [{"id": at + 2, "subscribe": {"channel": channel, "recover": True, "epoch": epochs[channel], "offset": 0}}
            for at, channel in enumerate(channels)]


def brought_back(port, commands, pause=0):
    """What is wrong with the replies to these commands, sent in one frame; nothing if all is well."""
    peer = Peer(port, 65_536 if pause else None)
    peer.write(frame("".join(text_of(command) for command in commands)))
    try:
        for command in commands:
            time.sleep(pause)
            reply = peer.next(20)
            if reply is None:
                return "no reply in 20 seconds"
            name = next(word for word in command if word != "id")
            found = reply.get(name, {})
            if reply.get("id") != command["id"] or "error" in reply:
                return f"{text_of(reply)[:80]} for command {command['id']}"
            if name != "ping" and len(found.get("publications", [])) != COUNT:
                return f"{len(found.get('publications', []))} publications"
            if name == "subscribe" and not found.get("recovered"):
                return "not recovered"
    except Closed as why:
        return f"closed with {why}"
    finally:
        peer.drop()
    return ""


def fill(port, channels):
    """Publishes to the channels, and gives their epochs."""
    peer = Peer(port)
    for channel in channels:
        for _ in range(COUNT):
            peer.publish(channel, "x" * SIZE)
    epochs = {channel: peer.subscribe(channel)["epoch"] for channel in channels}
    peer.drop()
    return epochs


def attack(ready, port, seconds):
    """Comes back to four channels in one frame, again and again."""
    channels = [f"news{at}" for at in range(CHANNELS)]
    epochs = fill(port, channels)
    ready()
    until = time.monotonic() + seconds
    while time.monotonic() < until:
        brought_back(port, asks(channels, epochs))


def check(program, seconds):
    channels = [f"news{at}" for at in range(CHANNELS)]
    with Server(program) as server:
        epochs = fill(server.port, channels)
        pings = [{"id": at + 2, "ping": {}} for at in range(100)]
        histories = [{"id": at + 102, "history": {"channel": channel, "limit": -1}} for at, channel in enumerate(channels[:2])]
        faults = [f"two channels: {fault}" for _ in range(5) if (fault := brought_back(server.port, asks(channels[:2], epochs)))]
        for words, commands, pause in [("four channels", asks(channels, epochs), 0), ("two histories", pings + histories, 0),
                                       ("four, read slowly", asks(channels, epochs), 0.08)]:
            fault = brought_back(server.port, commands, pause)
            faults += [f"{words}: {fault}"] if fault else []
    return not faults, "; ".join(faults) or f"{CHANNELS} channels of {COUNT * SIZE} bytes in one frame are brought back, and so are two, 5 of 5"


if __name__ == "__main__":
    run(check, 0)
