"""What a server's threads and the processes beside it do, looked at twice a second, and long waits with what ran in them."""
import os
import time

from peers import Healthy, millis

EACH = 0.5      # seconds between two looks
LATE = 2.0      # seconds that a healthy client may wait before it is told what ran then


def healthy_and_late(ready, ports, count, seconds):
    """The faults of so many healthy clients, their longest wait from a publish to its push, and the long waits."""
    clients = Healthy(ports, count)
    ready()
    clients.follow(seconds)
    return clients.faults, clients.longest, long_waits(clients.waits)


def long_waits(waits):
    """The waits over two seconds, those that overlap as one: when the first began and the last was over, how many publications are in it,
    and the longest wait for a reply, and for a push on each node."""
    found = []
    for moment, each in sorted(waits.items()):
        if max(each) <= LATE:
            continue
        if found and moment <= found[-1][1]:
            begins, ends, count, longest = found.pop()
            found.append((begins, max(ends, moment + max(each)), count + 1, [max(pair) for pair in zip(longest, each)]))
        else:
            found.append((moment, moment + max(each), 1, each))
    return found


def times(path):
    """The seconds for which a process or thread ran, and for which it waited for a processor; none if it is gone."""
    try:
        with open(f"{path}/schedstat") as file:
            ran, waited, _ = file.read().split()
        return int(ran) / 1e9, int(waited) / 1e9
    except OSError:
        return None


def machine():
    """The seconds of all processors in which nothing ran, and that the host took, since it started."""
    with open("/proc/stat") as file:
        words = file.readline().split()
    return tuple(int(words[at]) / os.sysconf("SC_CLK_TCK") for at in (4, 8))


def looks(ready, server, others, seconds):
    """What was seen, look by look: when, the times of each thread of the server and of each other process by its name, and those of the
    machine."""
    ready()
    found, until = [], time.monotonic() + seconds
    while time.monotonic() < until and os.path.exists(f"/proc/{server}/task"):
        paths = {f"thread {at}": f"/proc/{server}/task/{task}" for at, task in enumerate(sorted(os.listdir(f"/proc/{server}/task"), key=int))}
        paths.update({name: f"/proc/{process}" for name, process in others.items()})
        found.append((time.monotonic(), {name: times(path) for name, path in paths.items()}, machine()))
        time.sleep(EACH)
    return found


def share(seconds, of):
    return f"{100 * seconds / of:.0f}"


def ran_meanwhile(found, begins, ends):
    """What ran between two moments, in words."""
    if len(found) < 2:
        return "what ran then wasn't seen"
    first = next((look for look in reversed(found[:-1]) if look[0] <= begins), found[0])
    last = next((look for look in found[1:] if look[0] >= ends), found[-1])
    passed, each = last[0] - first[0], {}
    for name, after in last[1].items():
        before = first[1].get(name)
        if before and after:
            each[name] = after[0] - before[0], after[1] - before[1]
    threads = [pair for name, pair in each.items() if name.startswith("thread ")]
    others = sorted(((pair, name) for name, pair in each.items() if not name.startswith("thread ")), reverse=True)
    idle, stolen = (after - before for after, before in zip(last[2], first[2]))
    return (f"of {passed:.1f} s the server's threads ran {', '.join(share(ran, passed) for ran, _ in threads)} % "
            f"and waited for a processor {', '.join(share(waited, passed) for _, waited in threads)} %; "
            + ", ".join(f"{name} ran {share(ran, passed)} and waited {share(waited, passed)} %" for (ran, waited), name in others[:5])
            + f"; of {os.cpu_count()} processors {share(idle / os.cpu_count(), passed)} % were idle and "
            f"{share(stolen / os.cpu_count(), passed)} % taken by the host")


def in_words(late, found, began):
    """Each long wait of a life that began at this moment, with what ran then."""
    for begins, ends, count, (reply, *pushes) in late:
        yield (f"from second {begins - began:.1f} to {ends - began:.1f} {count} publications waited long: for a reply at most {millis(reply)}, "
               f"for a push {', '.join(f'{millis(push)} on node {at}' for at, push in enumerate(pushes))}; "
               + ran_meanwhile(found, begins, ends))
