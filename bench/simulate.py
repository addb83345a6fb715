#!/usr/bin/env python3
"""Time and memory of `cf_server simulate` on long schedules.

    cd crates/cf_server && rt run < stdin && cd ../.. && bench/simulate.py [LINES ..] [--program FILE]

For each kind of schedule and each number of lines (50,000, 100,000 and 400,000 by default) the proved program runs a schedule of
so many lines. The best time of fifteen runs is printed, the most memory of them, and how many times the time before it took.

    one     one client takes each of many publications
    many    1,000 clients on 8 nodes, ten to a channel, take what is published there
    breaks  the same, and now and then a connection breaks, a delivery is lost, or what is held is cut, after which clients come
            back from where they were

    bench/simulate.py --against OLD [LINES ..]

runs another program beside it, in turns, on the kinds without breaks.

    bench/simulate.py --print KIND LINES

prints such a schedule.
"""
import contextlib
import os
import random
import subprocess
import sys
import tempfile
import time

sys.path.insert(0, os.path.join(os.path.dirname(os.path.abspath(__file__)), "..", "tools"))

from program import program_at, words_and_program  # noqa: E402

WORDS = ["simulate", "--nodes", "8"]
CLIENTS = 1_000
CHANNELS = 100
NODES = 8
RUNS = 15


def one(count):
    lines = ["epoch aaaa", "connect ann 0", "ask ann news", "read ann news", "finish ann news", "take ann"]
    number = 0
    while len(lines) < count:
        number += 1
        lines += ['publish news {"t":%d}' % number, "deliver 0 %d" % number, "take ann"]
    return lines


def node(client):
    return client % NODES


def followers(channel):
    return range(channel, CLIENTS, CHANNELS)


def subscribe(word, client, channel):
    return [f"{word} c{client} news{channel}", f"read c{client} news{channel}", f"finish c{client} news{channel}", f"take c{client}"]


def opening():
    lines = [f"epoch e{channel}" for channel in range(CHANNELS)]
    for client in range(CLIENTS):
        lines += [f"connect c{client} {node(client)}", *subscribe("ask", client, client % CHANNELS)]
    return lines


def many(count, chance=lambda _: False):
    """If a chance is not taken, all goes well."""
    lines = opening()
    number = 0
    while len(lines) < count:
        channel = number % CHANNELS
        broken = [client for client in followers(channel) if chance(40)]
        lines += [f"break c{client}" for client in broken]
        if broken and chance(4):
            lines.append(f"trim news{channel} 0")
        number += 1
        lines.append('publish news%d {"t":%d}' % (channel, number))
        for at in sorted({node(client) for client in followers(channel)}):
            if not chance(100):
                lines.append(f"deliver {at} {number}")
        for client in followers(channel):
            if client in broken:
                lines += [f"connect c{client} {node(client)}", *subscribe("askfrom", client, channel)]
            else:
                lines.append(f"take c{client}")
                if chance(50):
                    lines.append(f"check c{client} news{channel}")
                # One whose subscription has ended comes back; of another this changes nothing.
                if chance(20):
                    lines += subscribe("askfrom", client, channel)
    return lines


def breaks(count):
    choice = random.Random(7)
    return many(count, lambda often: choice.randrange(often) == 0)


KINDS = {"one": one, "many": many, "breaks": breaks}


def schedule(kind, count):
    return "\n".join(KINDS[kind](count)[:count]) + "\n"


def run(program, lines):
    """The seconds and kibibytes of one run, and how many lines it printed."""
    lines.seek(0)
    with tempfile.TemporaryFile() as printed:
        started = time.monotonic()
        child = subprocess.Popen([program, *WORDS], stdin=lines, stdout=printed)
        _, status, used = os.wait4(child.pid, 0)
        seconds = time.monotonic() - started
        child.returncode = os.waitstatus_to_exitcode(status)
        if child.returncode != 0:
            sys.exit(f"{program} ended with status {child.returncode}")
        printed.seek(0)
        return seconds, used.ru_maxrss, sum(1 for _ in printed)


def measured(programs, kind, counts):
    """The runs of each program on each number of lines: all of them once, then all once more, so that a slow second of the machine
    is none of one number alone."""
    with contextlib.ExitStack() as stack:
        files = {count: stack.enter_context(tempfile.TemporaryFile("w+")) for count in counts}
        for count, lines in files.items():
            # (a process of its own makes it: a run's memory is never counted as less than that of its parent)
            subprocess.run([sys.executable, __file__, "--print", kind, str(count)], stdout=lines, check=True)
        runs = {(program, count): [] for program in programs for count in counts}
        for _ in range(RUNS):
            for program, count in runs:
                runs[program, count].append(run(program, files[count]))
        return runs


def measure(programs, kind, counts):
    runs, best = measured(programs, kind, counts), {}
    for count in counts:
        for name, program in zip(["this", "other"], programs):
            seconds = min(found[0] for found in runs[program, count])
            kibibytes = max(found[1] for found in runs[program, count])
            before = best.get(name)
            grown = f", {seconds / before:.2f} times the time before" if before else ""
            best[name] = seconds
            label = f"{kind} ({name})" if len(programs) > 1 else kind
            printed = runs[program, count][0][2]
            print(f"{label}: {count} lines: {seconds:.2f} s, {kibibytes} KiB, {printed} lines printed{grown}", flush=True)
        if len(programs) > 1:
            print(f"{kind}: {count} lines: {best['this'] / best['other']:.2f} times the other's time", flush=True)


def main():
    words = sys.argv[1:]
    if words[:1] == ["--print"] and len(words) == 3:
        sys.stdout.write(schedule(words[1], int(words[2])))
        return
    against = words[:1] == ["--against"] and len(words) > 1 and words[1]
    words, program = words_and_program(usage=__doc__, words=words[2:] if against else words)
    programs, kinds = ([program, program_at(against)], ["one", "many"]) if against else ([program], list(KINDS))
    for kind in kinds:
        measure(programs, kind, [int(word) for word in words] or [50_000, 100_000, 400_000])


main()
