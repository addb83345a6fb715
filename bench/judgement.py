"""Judges what clients of a server got, beside an account of what was published (bench/histories makes both).

A history has the sizes of the channels' streams, the lives of each channel, what each client got, and what the publishers read of
the streams. A life is one epoch: its offset 1 is the number `first`, offset 2 the next, since each channel has one publisher, who
numbers its publications. `acked` of them were acknowledged, `sent` were sent. What a client got is a list of events:

    ["ask", CHANNEL, EPOCH or null, OFFSET, ACKED]      it asks, from a position or from none; ACKED stood at that time
    ["sub", CHANNEL, EPOCH, TOP, RECOVERED, PUBS, SENT] the reply, with publications as [OFFSET, DATUM]; SENT stood at that time
    ["pub", CHANNEL, OFFSET, DATUM]                     a push
    ["end", CHANNEL]                                    the subscription is ended with 2500
    ["gone"]                                            the connection is lost or closed
"""
import copy

MOST_IN_A_REPLY = 300
LIES = ["gap", "repeat", "datum", "recovered"]


class Judge:
    """The faults of a history, each with the sentence that it breaks: two data at one place, a gap, a repeat, `recovered` said
    otherwise than the stream held, a top that can't be the stream's, or something that didn't arrive."""

    def __init__(self, history):
        self.sizes, self.lives = history["sizes"], {}
        self.places, self.faults = {}, []
        self.recovered = self.lost = self.ended = 0
        self.clients = [Client(self, f"client {number}") for number in range(len(history["clients"]))]
        self.goes_on(history)

    def goes_on(self, history):
        """Judges what was read and what the clients got since the history that it judged last."""
        self.lives = {(channel, life["epoch"]): life for channel, lives in history["lives"].items() for life in lives}
        for channel, epoch, top, publications in history["read"]:
            self.run(f"the publisher of {channel}", channel, epoch, top - len(publications), top, publications)
        for client, events in zip(self.clients, history["clients"]):
            client.judge(events)

    def fault(self, kind, who, words):
        self.faults.append(f"{kind}: {who}: {words}")

    def place(self, who, channel, epoch, offset, datum):
        """One datum at each channel, epoch and offset: the one that was published there."""
        known = self.places.setdefault((channel, epoch, offset), datum)
        if known != datum:
            self.fault("datum", who, f"{datum!r} at {channel} {epoch} {offset}, where another has {known!r}")
        life = self.lives.get((channel, epoch))
        if life is None:
            self.fault("datum", who, f"{channel} has no epoch {epoch}")
        elif not 1 <= offset <= life["sent"] or datum != life["first"] + offset - 1:
            self.fault("datum", who, f"{datum!r} at {channel} {epoch} {offset}, where {life['first'] + offset - 1} was published")

    def run(self, who, channel, epoch, start, top, publications):
        """What follows `start` up to `top`, without gap or repeat."""
        last = start
        for offset, datum in publications:
            self.follows(who, channel, epoch, last, offset)
            self.place(who, channel, epoch, offset, datum)
            last = offset
        if last != top:
            self.fault("gap", who, f"{channel} {epoch}: what follows {start} ends at {last}, and not at {top}")

    def follows(self, who, channel, epoch, last, offset):
        if offset > last + 1:
            self.fault("gap", who, f"{channel} {epoch}: offset {offset} after {last}")
        elif offset <= last:
            self.fault("repeat", who, f"{channel} {epoch}: offset {offset} after {last}")


class Client:
    """One client: where it is in each channel, and whether it is subscribed there."""

    def __init__(self, judge, who):
        self.judged, self.who = judge, who
        self.at, self.live, self.asked = {}, set(), {}

    def judge(self, events):
        for kind, *words in events:
            getattr(self, kind)(*words)

    def ask(self, channel, epoch, offset, acked):
        self.asked[channel] = epoch, offset, acked

    def gone(self):
        self.live.clear()
        self.asked.clear()

    def end(self, channel):
        self.judged.ended += 1
        self.live.discard(channel)

    def sub(self, channel, epoch, top, recovered, publications, sent):
        since, offset, acked = self.asked.pop(channel)
        life = self.judged.lives.get((channel, epoch), {"acked": 0, "sent": 0})
        if top > sent or top > life["sent"] or (acked[0] == epoch and top < acked[1]):
            self.judged.fault("top", self.who, f"{channel} {epoch}: {top}, where {acked} were acknowledged and {sent} sent")
        if since is not None:
            self.recovers(channel, (since, offset), (epoch, top), recovered, publications)
        elif recovered or publications:
            self.judged.fault("recovered", self.who, f"{channel} {epoch}: recovered, though it asked from no position")
        self.at[channel] = epoch, top
        self.live.add(channel)

    def recovers(self, channel, asked, found, recovered, publications):
        """`recovered` exactly if everything since the position was held, and then exactly that."""
        (since, offset), (epoch, top) = asked, found
        namespace = channel.partition(":")[0] if ":" in channel else ""
        most = min(self.judged.sizes[namespace], MOST_IN_A_REPLY)
        held = since == epoch and 0 <= top - offset <= most
        self.judged.recovered += recovered
        self.judged.lost += not recovered
        if recovered != held:
            said = "recovered" if recovered else "lost"
            self.judged.fault("recovered", self.who, f"{channel}: {said} from {since} {offset} at {epoch} {top}, which holds {most} at most")
        if recovered:
            self.judged.run(self.who, channel, epoch, offset, top, publications)
        elif publications:
            self.judged.fault("recovered", self.who, f"{channel}: lost, and publications all the same")

    def pub(self, channel, offset, datum):
        if channel not in self.live:
            self.judged.fault("repeat", self.who, f"{channel}: a push of {offset} while it isn't subscribed")
            return
        epoch, last = self.at[channel]
        self.judged.follows(self.who, channel, epoch, last, offset)
        self.judged.place(self.who, channel, epoch, offset, datum)
        self.at[channel] = epoch, offset


def arrived(history, positions):
    """What did not arrive: the last position of each client, in each of its channels, is the end of that channel's last life."""
    for number, at in enumerate(positions):
        for channel, (epoch, offset) in at.items():
            life = history["lives"][channel][-1]
            if (epoch, offset) != (life["epoch"], life["acked"]):
                yield f"arrival: client {number}: {channel}: at {epoch} {offset} in the end, and not at {life['epoch']} {life['acked']}"


def in_a_run(events):
    """Where a push stands between two others of its channel, with the same subscription."""
    for at in range(1, len(events) - 1):
        before, here, behind = events[at - 1:at + 2]
        if before[0] == here[0] == behind[0] == "pub" and before[1] == here[1] == behind[1]:
            return at
    return None


def told(history, lie):
    """The history with one message changed: a push left out, brought twice, with another datum, or a reply that says the other of
    `recovered` and lost."""
    history = copy.deepcopy(history)
    for events in history["clients"]:
        at = in_a_run(events)
        if lie == "recovered":
            at = next((at for at, event in enumerate(events) if event[0] == "sub" and event[4]), None)
        if at is None:
            continue
        if lie == "gap":
            del events[at]
        elif lie == "repeat":
            events.insert(at, list(events[at]))
        elif lie == "datum":
            events[at][3] += 1
        else:
            events[at][4:6] = False, []
        return history
    raise SystemExit(f"this history has no message for the lie {lie}")
