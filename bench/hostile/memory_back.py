#!/usr/bin/env python3
"""Memory comes back once what it was needed for is gone, but for what is known to stay.

One channel holds 10,000 publications of 10,000 bytes, until `size =1` lets go of all but one (`--kind 1`); and a publication of 60,000 bytes goes
to 4,000 subscribers at once (`--readers`), who read it, and then another one (`--kind 2`; else both). Ten seconds later the server holds at
most twice what it held before, and 16 MiB. Before each it had a load of a twentieth, so that what it takes once and keeps isn't counted.

The server takes its memory as examples/run-serve has it: from libjemalloc2, if that is installed. With the C library's malloc (ALLOCATOR=libc
in the environment, or no libjemalloc2) what the stream took is known to stay, since glibc gives back what is free at the end of a heap alone:
then the first part is said and not judged. Of the second part the room of one text for each subscriber is known to stay, since the WebSocket
of the toolchain's kit keeps it; what stays beyond that is judged.

The readers are of C (crowd.c, which `cc` makes into a folder of its own).
"""
import os
import tempfile
import time

from flood import Crowd, crowd_made_in
from peers import LARGE, Fails, Peer, Server, frame, run, text_of

HELD, BODY = 10_000, "x" * 10_000
AT_ONCE = 50                        # publishes that are out at a time
AFTER = 10                          # seconds until the memory is looked at
LIBRARIES = ["/usr/lib/x86_64-linux-gnu/libjemalloc.so.2", "/usr/lib64/libjemalloc.so.2"]
DECAY = "background_thread:true,dirty_decay_ms:2000,muzzy_decay_ms:0"
SPARE = 16 << 20                    # bytes that may stay beside
KEPT = 65_536                       # bytes that each connection may keep of a large text


def publish(peer, channel, count):
    """Publishes so many, so many at a time."""
    for first in range(0, count, AT_ONCE):
        some = range(first, min(first + AT_ONCE, count))
        for _ in some:
            peer.last_id += 1
            peer.write(frame(text_of({"id": peer.last_id, "publish": {"channel": channel, "data": BODY}})))
        last = peer.reply(peer.last_id, 60)
        if "error" in last:
            raise Fails(f"a publish was answered {text_of(last)}")
        peer.messages.clear()


def say(server, line):
    server.process.stdin.write(line + "\n")
    server.process.stdin.flush()
    time.sleep(1)


def judged(words, before, most, after, known=0):
    """Whether it holds if so many bytes are known to stay, and what it was, in words."""
    holds = after <= 2 * before + SPARE + known
    beside = f", of which up to {known >> 20} are known to stay" if known else ""
    return holds, f"{words}: {before >> 20} MiB before, {most >> 20} under the load, {after >> 20} after {AFTER} s{beside}"


def stream(program):
    """A stream that is told to hold next to nothing."""
    with Server(program, words=["--ns", f"={HELD},300,ph"]) as server:
        peer = Peer(server.port)
        publish(peer, "news", HELD // 20)
        say(server, "size =1")
        before = server.bytes()
        say(server, f"size ={HELD}")
        publish(peer, "news", HELD)
        most = server.bytes()
        say(server, "size =1")
        time.sleep(AFTER)
        return judged(f"{HELD} times {len(BODY)} bytes", before, most, server.bytes())


def crowd(program, readers):
    """A large publication to many."""
    with tempfile.TemporaryDirectory() as folder:
        made = crowd_made_in(folder)
        with Server(program, nodes=2) as server:
            reading = Crowd(made, "reads", server.ports, "crowd", readers)
            few = Crowd(made, "reads", server.ports, "few", readers // 20)
            try:
                peer, most = Peer(server.port), 0
                peer.publish("few", "x" * LARGE)
                time.sleep(2)
                before = server.bytes()
                for _ in range(2):
                    peer.send({"publish": {"channel": "crowd", "data": "x" * LARGE}})
                    until = time.monotonic() + AFTER
                    while time.monotonic() < until:
                        most = max(most, server.bytes())
                        time.sleep(0.02)
                after = server.bytes()
                _, _, ended, codes, texts, _ = reading.end()
            finally:
                reading.kill()
                few.kill()
            if ended or texts < 2 * readers:
                raise Fails(f"{ended} of {readers} readers were closed {codes}, {texts} texts came")
            return judged(f"{LARGE} bytes to {readers}, twice", before, most, after, readers * KEPT)


def is_given_back():
    """Whether the servers from here on take their memory from libjemalloc2."""
    found = [library for library in LIBRARIES if os.path.exists(library)]
    if os.environ.get("ALLOCATOR") == "libc" or not found:
        return False
    os.environ.update({"LD_PRELOAD": found[0], "MALLOC_CONF": DECAY})
    return True


def check(program, seconds, kind, readers):
    found, gives_back = [], is_given_back()
    if kind != 2:
        holds, said = stream(program)
        found.append((holds, said) if gives_back else (True, f"{said}, as it is known to without libjemalloc2"))
    if kind != 1:
        found.append(crowd(program, readers))
    return all(holds for holds, _ in found), "; ".join(said for _, said in found)


if __name__ == "__main__":
    run(check, 0, kind=0, readers=4000)
