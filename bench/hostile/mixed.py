#!/usr/bin/env python3
"""Each script's hostile client at once, beside 50 healthy ones who publish and follow.

None of the healthy is closed, nothing is lost or out of order; the longest wait from a publish to its push is said, and that of a
ping command. Two nodes; the hostile clients are spread over both, and each comes back when it is closed.

With `--minutes N` for so long, and beside twenty of `bench/histories`' clients too, who lose their connections and come back, and all that these
got is judged. The server is started anew every ten minutes (`--restart`), to a graceful end before: the healthy clients of a life leave
before its end, and others come after. After the first minute of a life and at its end it is looked for five seconds what memory and how
many descriptors it has: at the end it is no more than a quarter over the first, and 16 MiB and 100 descriptors, since what the hostile
clients have open varies. Channels stay once they are there, so the 200,000 of `many_channels` are opened before a life's hostile clients
begin, while all is calm: what is looked at later has them both times. If a healthy client waits over two seconds, it is said when in the
life that was, and what ran then: the server's threads, the other clients, and the machine.

With `--flood N` so many of `flood`'s publishers are among them, with 16 publishes of 1,000 bytes in flight each, to as many readers. Without it
`flood`'s are missing, which take all that two processors have.

The server takes its memory as examples/run-serve has it: from libjemalloc2, if that is installed and ALLOCATOR isn't `libc`.
"""
import importlib.machinery
import importlib.util
import os
import signal
import sys
import tempfile
import time

import burst_own_node
import close_codes
import closed_goes_on
import fast_sender
import half_reader
import heads
import late_pong
import many_channels
import presence_storm
import recoveries
import silent_connections
import slow_leaves
import stale
import turn_budget
from flood import IN_FLIGHT, Crowd, crowd_made_in
from memory_back import is_given_back
from peers import Apart, Closed, Fails, Healthy, Server, faults_in_words, longest_ping, millis, run
from watch import healthy_and_late, in_words, looks

HOSTILE = [burst_own_node, close_codes, closed_goes_on, fast_sender, half_reader, heads, late_pong, many_channels, presence_storm, recoveries,
           silent_connections, slow_leaves, stale, turn_budget]
NODES, MEMBERS = 2, 20
SETTLED = 60        # seconds of a life after which it is looked what the server holds, or a third of a shorter one
LEAVING = 15        # seconds before a life's end at which its healthy clients leave
MORE, SPARE, OPEN = 1.25, 16 << 20, 100
SIZES = {"": 100, "long": 1_000}    # of streams by minutes: `recoveries` has 90 publications held
CHANNELS = 200_000  # of `many_channels`
FLOOD = 1_000       # bytes that each publisher of a flood sends at a time


def again(ready, attack, port, seconds):
    """An attack that begins anew when its client is closed. How often it began."""
    until, times = time.monotonic() + seconds, 0
    said = []

    def once():
        if not said:
            said.append(1)
            ready()

    while time.monotonic() < until:
        times += 1
        try:
            attack(once, port, until - time.monotonic())
        except (Closed, Fails, OSError):
            time.sleep(0.05)
        once()
    return times


def floods(ready, ports, count, seconds):
    """So many publishers that flood, and as many who read, until this process is killed: then their standard input ends."""
    with tempfile.TemporaryDirectory() as folder:
        made = crowd_made_in(folder)
        readers = Crowd(made, "reads", ports, "flooded", count)
        publishers = Crowd(made, "floods", ports, "flooded", count, FLOOD, IN_FLIGHT)
    ready()
    publishers.begin()
    time.sleep(seconds)
    return publishers.end(), readers.end()


def attacks_on(server, seconds, flood):
    attacks = [Apart(again, it.attack, server.ports[at % NODES], seconds) for at, it in enumerate(HOSTILE)]
    if flood:
        attacks.append(Apart(floods, server.ports, flood, seconds))
    return attacks


def minute(program, seconds, clients, flood):
    """All of them at once, for so long."""
    with Server(program, nodes=NODES) as server:
        others = Healthy(server.ports, clients)
        attacks = attacks_on(server, seconds + 5, flood)
        pings = [Apart(longest_ping, port, seconds) for port in server.ports]
        others.follow(seconds)
        waits = [ping.result() for ping in pings]
        for attack in attacks:
            attack.kill()
        status = server.process.poll()
    faults = others.faults + ([f"serve ended with {status}"] if status is not None else [])
    return not faults, (f"{in_number(flood)} for {seconds:.0f} s beside {clients} healthy ones, {others.sent:,} publications: "
                        f"{faults_in_words(faults)}; the longest wait from publish to push {millis(others.longest)}, "
                        f"for a ping's answer {millis(max(waits))}")


def in_number(flood):
    return f"{len(HOSTILE)} hostile clients" + (f" and {flood} who flood" if flood else "")


def module_of_histories():
    """bench/histories, whose name ends as no module's does."""
    bench = os.path.dirname(os.path.dirname(os.path.abspath(__file__)))
    sys.path.append(bench)      # for its judgement
    loader = importlib.machinery.SourceFileLoader("histories", os.path.join(bench, "histories"))
    made = importlib.util.module_from_spec(importlib.util.spec_from_loader("histories", loader))
    loader.exec_module(made)
    made.SIZES.update(SIZES)
    return made


def held(members, server):
    """The memory and the descriptors that a server has within five seconds: the least and the most of each."""
    found = []
    for _ in range(20):
        members.turns(0.25)
        if server.process.poll() is not None:
            raise Fails(f"serve ended with {server.process.returncode}")
        found.append((server.bytes(), server.descriptors()))
    return [(min(one), max(one)) for one in zip(*found)]


class Life:
    """One life of the server: what went wrong in it, what it held, and which waits were long."""

    def __init__(self, program, histories, members, seconds, clients, is_last, flood):
        self.faults, self.positions, self.longest = [], None, 0
        namespaces = ";".join(f"{name}={size},2592000,phs" for name, size in SIZES.items())
        with Server(program, NODES, ["--ns", namespaces, "--stale", "25"]) as server:
            many_channels.opened(server.port, 0, CHANNELS)
            members.server, began = server, time.monotonic()
            # Publishers first, while all is calm, so that each channel has its life.
            members.publishes = False
            for publisher in members.publishers:
                publisher.due = 0
                publisher.turn()
            others = Apart(healthy_and_late, server.ports, clients, max(5, seconds - LEAVING))
            attacks = attacks_on(server, seconds + 600, flood)
            self.faults += [f"{it.early}" for it in attacks if it.early is not None]
            beside = {it.__name__: attack.process.pid for it, attack in zip([*HOSTILE, floods], attacks)}
            beside.update({"the healthy clients": others.process.pid, "who come and go": os.getpid()})
            watch = Apart(looks, server.process.pid, beside, seconds)
            self.follow(histories, members, server, seconds)
            for attack in attacks:
                attack.kill()
            found, self.longest, late = others.result(120)
            self.faults += found
            self.late = list(in_words(late, watch.result(120), began))
            if server.process.poll() is not None:
                raise Fails(f"serve ended with {server.process.returncode}")
            if is_last:
                members.come_to_rest()
                self.positions = [dict(it.at) for it in members.subscribers]
        members.server = None
        for member in [*members.publishers, *members.subscribers]:
            if member.peer:
                member.look()
            if member.peer:
                member.lost()

    def follow(self, histories, members, server, seconds):
        """Serves the members for so long, and looks what the server holds."""
        members.publishes = members.loses = True
        settled, until = min(SETTLED, seconds / 3), time.monotonic() + seconds
        members.turns(settled)
        (_, bytes_first), (_, open_first) = held(members, server)
        members.turns(until - time.monotonic() - 5)
        (bytes_last, _), (open_last, _) = held(members, server)
        self.held = (f"{bytes_first >> 20} MiB and {open_first} descriptors after {settled:.0f} s, {bytes_last >> 20} and {open_last} "
                     f"after {seconds:.0f}")
        if bytes_last > MORE * bytes_first + SPARE or open_last > open_first + OPEN:
            self.faults.append(f"it holds more and more: {self.held}")


def tell(lives, judge):
    """Says on standard error how a life went, so that who waits for an hour sees it."""
    life = lives[-1]
    print(f"life {len(lives)}: {faults_in_words(life.faults)}; until now {judge.recovered + judge.lost} recoveries, "
          f"{len(judge.faults)} faults; the longest wait {millis(life.longest)}; {life.held}", file=sys.stderr, flush=True)
    for late in life.late:
        print(f"life {len(lives)}: {late}", file=sys.stderr, flush=True)


def judge_life(judge, members):
    """Judges what the members got in a life, and lets it go: that of an hour would take gigabytes."""
    judge.goes_on(members.history())
    judge.places.clear()    # (the next life has epochs of its own)
    members.read.clear()
    for member in members.subscribers:
        member.events.clear()


def long_run(program, seconds, clients, restart, flood):
    """Lives of the server, one after another, and what all clients got."""
    signal.alarm(int(2 * seconds) + 600)
    library = "libjemalloc2" if is_given_back() else "the C library"
    histories = module_of_histories()
    members = histories.Run(program, NODES, MEMBERS)
    judge, lives, count = histories.Judge(members.history()), [], max(1, round(seconds / restart))
    for at in range(count):
        lives.append(Life(program, histories, members, seconds / count, clients, at == count - 1, flood))
        judge_life(judge, members)
        tell(lives, judge)
    history = members.history()
    faults = [fault for life in lives for fault in life.faults] + judge.faults
    faults += histories.arrived(history, lives[-1].positions)
    acknowledged = sum(life["acked"] for known in history["lives"].values() for life in known)
    return not faults, (f"{in_number(flood)} for {seconds / 60:.0f} minutes, {count} lives, beside {clients} healthy ones and {MEMBERS} who come and "
                        f"go: {faults_in_words(faults)}; {acknowledged:,} publications, {judge.recovered + judge.lost} recoveries ({judge.lost} lost), "
                        f"{judge.ended} times 2500; the longest wait from publish to push {millis(max(life.longest for life in lives))}, "
                        f"{sum(len(life.late) for life in lives)} times over two seconds; memory from {library}: "
                        + "; ".join(life.held for life in lives))


def check(program, seconds, clients, minutes, restart, flood):
    if minutes:
        return long_run(program, 60 * minutes, clients, 60 * restart, flood)
    return minute(program, seconds, clients, flood)


if __name__ == "__main__":
    run(check, 60, clients=50, minutes=0, restart=10, flood=0)
