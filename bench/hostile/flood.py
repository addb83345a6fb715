#!/usr/bin/env python3
"""Many publishers whose texts go to many: what each of them costs is theirs to wait for, and nobody else's.

1,500 clients on two nodes (`--publishers`) keep 16 publishes in flight each, first of 20,000 bytes to 300 readers who keep up, then of
1,000 bytes to 1,000 readers, half of the seconds each (`--kind 1` or `2`: one of both alone). Beside them 40 healthy clients publish 60 bytes
every 50 ms, one at a time, each to itself. None of these is closed, and none waits over 2 seconds for a reply. All answer their pings, so
none is closed with 3012, the publishers neither. Then the publishers go, all at once and without a word, by a reset, which comes to the
node also while it hasn't read what they sent before: a second and a half later none of them is present any more, as a client is told
that was there all the time. Two newcomers, one that comes amid the flood and one as the publishers go, wait no longer than 2 seconds for
the reply to their connect, and for the first one behind it; how long for their first publish, is said. With `--anew N` so many more come,
publish once, and come anew: then no more is known of newcomers than of these N, and how long they wait is said and not judged.
(`--bytes`, `--readers`, `--healthy` and `--gap` are for a slower program, as one that is built without proof.)

The clients are of C (crowd.c, which `cc` makes into a folder of its own), since those of Python are closed as slow before a flood is one.
The server has two processors, 0 and 1 (`--processors`), the clients all.
"""
import contextlib
import os
import subprocess
import tempfile
import time

from peers import FORK, Apart, Closed, Fails, Peer, Server, run

KINDS = {1: (20_000, 300), 2: (1_000, 1_000)}   # bytes of a text, and how many read it
IN_FLIGHT = 16
HEALTHY, SMALL, GAP = 40, 60, 50                # clients, bytes of a text, milliseconds
NO_PONG = "3012"
LONGEST = 2000                                  # milliseconds for which a healthy client, or a newcomer, may wait for a reply
WITHIN = 1.5                                    # seconds within which who left is no longer present


class Crowd:
    """A crowd of crowd.c, connected."""

    def __init__(self, program, kind, ports, channel, count, size=0, in_flight=0, gap=GAP):
        words = [program, kind, ",".join(map(str, ports)), channel, str(count), str(size), str(in_flight), str(gap)]
        self.process = subprocess.Popen(words, stdin=subprocess.PIPE, stdout=subprocess.PIPE, text=True)
        if self.process.stdout.readline() != "ready\n":
            raise Fails(f"{count} clients that {kind[:-1]} didn't connect")

    def begin(self):
        self.process.stdin.write("\n")
        self.process.stdin.flush()

    def end(self):
        """Replies, the longest wait, connections that ended, their codes, texts, errors; its sockets are closed then."""
        said, _ = self.process.communicate(timeout=60)
        replies, longest, ended, codes, texts, errors = said.split()
        return int(replies), int(longest), int(ended), codes, int(texts), int(errors)

    def kill(self):
        self.process.kill()
        self.process.wait()


def crowd_made_in(folder):
    """The program of crowd.c, made in this folder."""
    made = f"{folder}/crowd"
    source = os.path.join(os.path.dirname(os.path.abspath(__file__)), "crowd.c")
    subprocess.run(["cc", "-O2", "-o", made, source], check=True)
    return made


def asks(asker, seconds):
    """Has a client ask a little for so long, so that it is known to cost little."""
    until = time.monotonic() + seconds
    while time.monotonic() < until:
        asker.ask({"ping": {}}, 30)
        time.sleep(0.1)


def left_after(asker):
    """The seconds until nobody is present among the publishers, or None."""
    began = time.monotonic()
    with contextlib.suppress(Closed, Fails):
        while time.monotonic() < began + 30:
            if asker.ask({"presence_stats": {"channel": "flooders"}}, 30)["presence_stats"].get("num_clients", 0) == 0:
                return time.monotonic() - began
            time.sleep(0.05)
    return None


def newcomer(ready, port, comes):
    """The seconds that a client that comes at an event waits for the answer to its connect, then for its first reply, and then for that
    to its first publish: none of what doesn't come."""
    ready()
    comes.wait()
    found, began = [], time.monotonic()
    with contextlib.suppress(Closed, Fails):
        peer = Peer(port, waits=False)
        peer.introduce(60)
        peer.greet(60)
        found.append(time.monotonic() - began)
        for asked in {"ping": {}}, {"publish": {"channel": "newcomers", "data": "x" * SMALL}}:
            peer.ask(asked, 60)
            found.append(time.monotonic() - began - sum(found))
    return found


def is_prompt(found):
    return len(found) > 1 and all(wait * 1000 <= LONGEST for wait in found[:2])


def waits_in_words(found):
    return " and ".join([f"{wait:.2f} s" for wait in found] + ["none within 60 s"] * (3 - len(found)))


def flood(program, crowd, size, reading, seconds, publishers, processors, asking, gap, anew):
    """One flood. Whether it holds, and what it came to, in words."""
    mine = os.sched_getaffinity(0)
    os.sched_setaffinity(0, set(sorted(mine)[:processors]))
    with Server(program, nodes=2) as server, contextlib.ExitStack() as stack:
        os.sched_setaffinity(0, mine)

        def start(*words):
            made = Crowd(crowd, *words)
            stack.callback(made.kill)
            return made

        # (before the crowds, whose ends are told by pipes that a process made later would hold)
        comes = [FORK.Event(), FORK.Event()]
        amid, behind = (Apart(newcomer, server.port, event) for event in comes)
        readers = start("reads", server.ports, "crowd", reading)
        healthy = start("asks", server.ports, "healthy", asking, SMALL, 1, gap)
        floods = start("floods", server.ports, "crowd", publishers, size, IN_FLIGHT)
        returning = start("returns", server.ports, "crowd", anew, size) if anew else None
        healthy.begin()
        asker = Peer(server.port)
        asks(asker, 2)
        began = server.seconds()
        floods.begin()
        if returning:
            returning.begin()
        asks(asker, seconds / 2)
        comes[0].set()
        asks(asker, seconds / 2)
        busy = (server.seconds() - began) / seconds
        replies, longest, ended, codes, _, errors = healthy.end()
        _, _, out, out_codes, _, _ = floods.end()
        returned = returning.end()[0] if returning else 0
        comes[1].set()
        gone = left_after(asker)
        waited = [it.result(150) for it in (amid, behind)]
        _, _, lost, lost_codes, texts, _ = readers.end()
        is_heard = NO_PONG not in codes + out_codes
        is_calm = not ended and not errors and longest <= LONGEST and (anew or all(map(is_prompt, waited)))
        holds = is_calm and is_heard and gone is not None and gone <= WITHIN
        said = (f"{size} bytes to {reading}: of {asking} healthy {ended} closed {codes if ended else ''}, {replies} replies, {errors} errors, "
                f"longest wait {longest} ms; {lost} readers closed {lost_codes if lost else ''}, {out} publishers {out_codes if out else ''}; "
                f"{f'{returned} publishes from new connections; ' if anew else ''}"
                f"{texts} pushes in {seconds:.0f} s, {busy:.1f} processors; publishers gone from presence "
                + (f"{gone:.2f} s later" if gone is not None else "not within 30 s")
                + ", who came amid it and as they went waited for connect, reply and first publish " + ", ".join(map(waits_in_words, waited)))
        server.end = server.process.kill    # what still waits for readers is nobody's any more
        return holds, said


def check(program, seconds, kind, publishers, processors, bytes, readers, healthy, gap, anew):
    with tempfile.TemporaryDirectory() as folder:
        crowd = crowd_made_in(folder)
        kinds = [kind] if kind else list(KINDS)
        found = []
        for one in kinds:
            size, reading = bytes or KINDS[one][0], readers or KINDS[one][1]
            found.append(flood(program, crowd, size, reading, seconds / len(kinds), publishers, processors, healthy, gap, anew))
    return all(holds for holds, _ in found), "; and ".join(said for _, said in found)


if __name__ == "__main__":
    run(check, 120, kind=0, publishers=1500, processors=2, bytes=0, readers=0, healthy=HEALTHY, gap=GAP, anew=0)
