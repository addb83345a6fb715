"""What the scripts of this folder share: crowds, clients in processes of their own, and what they measure."""
import argparse
import collections
import contextlib
import multiprocessing
import os
import resource
import selectors
import signal
import sys
import time

sys.path.append(os.path.join(os.path.dirname(os.path.abspath(__file__)), "..", "..", "tools"))

from peer import FRAME, Peer, connected, frame, frames_in, handshake, packed, text_of  # noqa: E402, F401
from program import Closed, Fails, program_at  # noqa: E402
from server import BOOTS, Server  # noqa: E402, F401

LARGE = 60_000      # bytes of a publication that is called large
SMALL_ROOM = 4_096  # a receive buffer for a client that isn't to take much
TURN = 0.050        # seconds between two turns of a client, at most, whatever others send
FORK = multiprocessing.get_context("fork")


def crowd(port, count, channel=None, room=None, at_once=200):
    """So many connections, opened in batches, each subscribed to the channel."""
    peers = []
    while len(peers) < count:
        batch = [Peer(port, room, waits=False) for _ in range(min(at_once, count - len(peers)))]
        for peer in batch:
            peer.introduce()
            if channel:
                peer.send({"subscribe": {"channel": channel}})
        for peer in batch:
            peer.greet()
            if channel and "error" in peer.reply(peer.last_id, 20):
                raise Fails("a subscribe of a crowd was refused")
        peers += batch
    return peers


def held_open(ready, port, count, channel):
    """Holds such a crowd, and reads what it gets, until it is killed."""
    selector = selectors.DefaultSelector()
    for peer in crowd(port, count, channel):
        selector.register(peer.socket, selectors.EVENT_READ)
        peer.socket.setblocking(False)
    ready()
    while True:
        for key, _ in selector.select():
            with contextlib.suppress(BlockingIOError):
                if not key.fileobj.recv(1 << 18):
                    selector.unregister(key.fileobj)


def fill(port, channel, count, size):
    """Publishes so many texts of so many bytes to a channel, one after another."""
    peer = Peer(port)
    for _ in range(count):
        peer.publish(channel, "x" * size)
    peer.drop()


def pushed(message, channel):
    """The publication that a message pushes in this channel, if it does."""
    push = message.get("push", {})
    return push.get("pub") if push.get("channel") == channel else None


class Apart:
    """A function in a process of its own, so that no work of this one is in what it measures. Its first argument says when it
    is ready, which is waited for here; the result is asked for later."""

    def __init__(self, function, *given):
        self.pipe, far = FORK.Pipe()
        self.process = FORK.Process(target=self.run, args=(far, function, given), daemon=True)
        self.process.start()
        far.close()
        self.early = self.take(30)

    @staticmethod
    def run(far, function, given):
        for number in (signal.SIGALRM, signal.SIGTERM):
            signal.signal(number, signal.SIG_DFL)
        try:
            result = function(lambda: far.send(None), *given)
        except (Closed, Fails, OSError) as why:
            result = Fails(f"{function.__name__}: {type(why).__name__} {why}")
        with contextlib.suppress(OSError):
            far.send(result)
        os._exit(0)

    def take(self, timeout):
        try:
            if self.pipe.poll(timeout):
                return self.pipe.recv()
        except EOFError:
            pass
        self.process.kill()
        return Fails("a client's process said nothing in time")

    def result(self, timeout=60):
        found = self.early if self.early is not None else self.take(timeout)
        self.process.join(5)
        if isinstance(found, Fails):
            raise found
        return found

    def kill(self):
        self.process.kill()
        self.process.join()


def stolen():
    """The seconds that the host of this machine took from its processors, all together, since it started."""
    with open("/proc/stat") as file:
        return int(file.readline().split()[8]) / os.sysconf("SC_CLK_TCK")


def longest_ping(ready, port, seconds):
    """The longest time that a client waited for the answer to a ping command, asked again and again, without what the host took
    from the machine meanwhile. One that has no answer after 30 seconds waits no longer."""
    peer, longest = Peer(port), 0.0
    ready()
    until = time.monotonic() + seconds
    while time.monotonic() < until:
        taken, began = stolen(), time.monotonic()
        try:
            peer.ask({"ping": {}}, 30)
        except Fails:
            return time.monotonic() - began
        longest = max(longest, time.monotonic() - began - (stolen() - taken))
        time.sleep(0.0005)
    return longest


class Healthy:
    """Clients that all follow one channel, to which one after another publishes: what they got, and how long it took."""

    def __init__(self, ports, count, channel="healthy"):
        self.channel = channel
        self.node = {peer: at for at, port in enumerate(ports) for peer in crowd(port, len(range(at, count, len(ports))), channel)}
        self.peers = list(self.node)
        self.last = dict.fromkeys(self.peers, 0)
        self.sent, self.longest, self.faults = 0, 0.0, []
        self.asked = {}     # of each publish without a reply: when it was sent
        self.waits = {}     # of each publication, by when it was sent: the wait for its reply, and for the last push on each node
        self.selector = selectors.DefaultSelector()
        for peer in self.peers:
            self.selector.register(peer, selectors.EVENT_READ)

    def publish(self):
        """The next of them publishes the moment."""
        self.sent += 1
        peer, moment = self.peers[self.sent % len(self.peers)], time.monotonic()
        self.waits[moment] = [0.0] * (1 + len(set(self.node.values())))
        self.asked[peer, peer.send({"publish": {"channel": self.channel, "data": moment}})] = moment

    def look(self, timeout):
        for key, _ in self.selector.select(timeout):
            peer = key.fileobj
            peer.read(0)
            while peer.messages:
                self.judge(peer, peer.messages.popleft())
            if peer.code is not None:
                self.faults.append(f"closed with {peer.code}")
                self.selector.unregister(peer)

    def judge(self, peer, message):
        found = pushed(message, self.channel)
        if found:
            if found["offset"] != self.last[peer] + 1:
                self.faults.append(f"offset {found['offset']} after {self.last[peer]}")
            self.last[peer] = found["offset"]
            self.longest = max(self.longest, self.waited(found["data"], 1 + self.node[peer]))
        elif "error" in message or "push" in message:
            self.faults.append(text_of(message))
        elif "publish" in message:
            self.waited(self.asked.pop((peer, message["id"])), 0)

    def waited(self, moment, place):
        """Notes what came of a publication in this place of its waits, and gives how long it took."""
        wait = time.monotonic() - moment
        self.waits[moment][place] = wait
        return wait

    def follow(self, seconds, gap=0.02):
        """Publishes and reads for so long, and then until each has all, or five seconds passed."""
        until, due = time.monotonic() + seconds, time.monotonic()
        while time.monotonic() < until:
            if time.monotonic() >= due:
                self.publish()
                due = max(due + gap, time.monotonic() - 1)
            self.look(max(0, due - time.monotonic()))
        until = time.monotonic() + 5
        while time.monotonic() < until and not self.faults and min(self.last.values()) < self.sent:
            self.look(0.1)
        lost = sum(self.sent - last for last in self.last.values())
        if lost:
            self.faults.append(f"{lost} publications did not come")


def healthy(ready, ports, count, seconds):
    """The faults of so many healthy clients, and their longest wait from a publish to its push."""
    clients = Healthy(ports, count)
    ready()
    clients.follow(seconds)
    return clients.faults, clients.longest


def millis(seconds):
    return f"{seconds * 1000:.0f} ms"


def faults_in_words(faults):
    if not faults:
        return "none closed, nothing lost"
    told = collections.Counter(faults).most_common(3)
    return ", ".join(f"{times} times {fault}" for fault, times in told)


@contextlib.contextmanager
def bounded(seconds):
    """Fails if what is inside has not ended after so many seconds, or is told to end."""
    def late(number, _):
        signal.signal(signal.SIGTERM, signal.SIG_IGN)
        raise Fails(f"not done within {seconds:.0f} seconds" if number == signal.SIGALRM else "told to end")

    signal.signal(signal.SIGALRM, late)
    signal.signal(signal.SIGTERM, late)
    signal.alarm(int(seconds))
    try:
        yield
    finally:
        signal.alarm(0)


def run(check, seconds, **more):
    """Runs the check of a script on the words of its command line, prints what it says, and ends with 1 if it fails. `more`
    are further numbers that the check takes, with what they are if nothing is said."""
    name = os.path.splitext(os.path.basename(sys.argv[0]))[0]
    words = argparse.ArgumentParser(description=sys.modules["__main__"].__doc__, formatter_class=argparse.RawDescriptionHelpFormatter)
    words.add_argument("program", nargs="?", help="the program, if not crates/cf_server/out/cf_server")
    words.add_argument("--program", dest="named", metavar="FILE", help="the same")
    words.add_argument("--seconds", type=float, default=seconds, help=f"how long it measures ({seconds})")
    for word, number in more.items():
        words.add_argument(f"--{word}", type=int, default=number, help=f"({number})")
    given = vars(words.parse_args())
    named = given.pop("named")
    given["program"] = program_at(given["program"] or named)
    resource.setrlimit(resource.RLIMIT_NOFILE, (resource.getrlimit(resource.RLIMIT_NOFILE)[1],) * 2)
    try:
        with bounded(120 + 4 * given["seconds"]):
            holds, said = check(**given)
    except (Fails, Closed, OSError) as why:
        holds, said = False, f"{type(why).__name__}: {why}"
    print(f"{name}: {'holds' if holds else 'FAILS'}: {said}", flush=True)
    sys.exit(0 if holds else 1)
