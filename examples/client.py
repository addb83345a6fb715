#!/usr/bin/python3
"""Follows a channel through losses of its connection, by Debian's python3-websockets.

    apt-get install python3-websockets
    examples/client.py ws://127.0.0.1:8000 news

Prints a line for each publication, its offset and its data, and says on standard error how each subscription began. When the
connection is lost it comes back and asks from its position: what it missed follows, or it is told that it can't be had. If
that ask is closed with 3008, what it missed doesn't fit one reply: then it reads it by `history`, page by page, and asks from there.

It comes back also from where there is no server, from a proxy that answers 502, and from a handshake that is cut short, and says
on standard error what it met. It ends if the server tells it not to come back, by an error in place of a subscription or with a
code from 3500 to 3999, and if its address is no WebSocket's.
"""
import asyncio
import json
import random
import sys

try:
    import websockets
except ImportError:
    sys.exit("client.py: this python has no websockets: apt-get install python3-websockets, and run it by /usr/bin/python3")


# So many publications fit one reply, 1,048,576 bytes, however long they are: each came in a frame of 65,536 bytes at most.
PAGE = 15


class Follower:
    """What a client knows of one channel: the epoch of its stream, and the offset of the last publication that it has."""

    def __init__(self, server, channel):
        self.server = server
        self.channel = channel
        self.epoch = None
        self.offset = 0
        self.heard = []       # messages that came in one text with those before them
        self.last_id = 0      # ids of commands count from 1 on each connection
        self.asks = False     # whether a subscribe from the position waits for its reply
        self.behind = False   # whether such a one was closed with 3008
        self.delay = 0.1      # how long to wait before the next try, in seconds

    async def follow(self):
        """Follows the channel for ever."""
        while True:
            try:
                async with websockets.connect(self.server, max_size=None) as socket:
                    await self.serve(socket)
            except websockets.InvalidURI as error:
                sys.exit(str(error))
            except websockets.ConnectionClosed as closed:
                if closed.code is not None and 3500 <= closed.code < 4000:
                    sys.exit(f"closed with {closed.code} {closed.reason}")
                self.behind = self.behind or self.asks and closed.code == 3008
                self.say(f"away: closed with {closed.code} {closed.reason}".rstrip())
            except (OSError, EOFError, asyncio.TimeoutError, websockets.WebSocketException) as error:
                # No server, a proxy's 502, a handshake that is cut short or takes for ever.
                self.say(f"away: {error or type(error).__name__}")
            # Half of it more or less: many clients of a server that was restarted don't all come at one time.
            await asyncio.sleep(self.delay * random.uniform(0.5, 1.5))
            self.delay = min(self.delay * 2, 5)

    async def serve(self, socket):
        """One connection, until it is lost."""
        self.heard, self.last_id, self.asks = [], 0, False
        await self.ask(socket, {"connect": {}})
        if self.behind:
            await self.catch_up(socket)
        await self.subscribe(socket)
        while True:
            push = (await self.hear(socket)).get("push", {})
            if push.get("channel") == self.channel and "pub" in push:
                self.got(push["pub"])
            elif push.get("channel") == self.channel and "unsubscribe" in push:
                # Something was missed: ask again from the position.
                await self.subscribe(socket)

    async def hear(self, socket):
        """The next message that is no ping; a ping is answered."""
        while True:
            while not self.heard:
                self.heard = (await socket.recv()).splitlines()
            message = json.loads(self.heard.pop(0))
            if message:
                return message
            await socket.send("{}")

    async def ask(self, socket, command):
        """Sends a command, and gives its reply. No push comes before it that counts: nothing is subscribed to meanwhile."""
        self.last_id += 1
        await socket.send(json.dumps({"id": self.last_id, **command}))
        while True:
            message = await self.hear(socket)
            if message.get("id") == self.last_id:
                return message

    async def subscribe(self, socket):
        request = {"channel": self.channel}
        if self.epoch is not None:
            request.update(recover=True, epoch=self.epoch, offset=self.offset)
            self.asks = True
        reply = await self.ask(socket, {"subscribe": request})
        self.asks = False
        if reply.get("error", {}).get("temporary"):
            raise OSError(f"refused for now: {reply['error']}")
        if "error" in reply:
            sys.exit(f"refused: {reply['error']}")
        self.subscribed(reply["subscribe"])

    async def catch_up(self, socket):
        """Reads what was missed, page by page, up to the top of the stream, as far as it is held without a gap."""
        missed, top = 0, None
        while top is None or self.offset < top:
            since = {"epoch": self.epoch, "offset": self.offset}
            reply = await self.ask(socket, {"history": {"channel": self.channel, "limit": PAGE, "since": since}})
            if "error" in reply and reply["error"]["code"] != 112:
                self.say(f"lost: {reply['error']['message']}, so what was missed can't be read")
                self.epoch = None
                break
            page = reply.get("history", {}).get("publications", [])
            if not page or page[0]["offset"] != self.offset + 1:
                break   # gone, or of another epoch: the reply to the subscribe says so
            for publication in page:
                self.got(publication)
            missed, top = missed + len(page), reply["history"].get("offset", 0)
        self.say(f"{missed} read by history")
        self.behind = False

    def subscribed(self, result):
        recovered = result.get("recovered", False)
        state = "recovered" if recovered else "lost" if result.get("was_recovering") else "fresh"
        self.say(f"{state} at epoch {result['epoch']} offset {result.get('offset', 0)}")
        self.delay = 0.1
        self.epoch = result["epoch"]
        if not recovered:
            self.offset = result.get("offset", 0)
        for publication in result.get("publications", []):
            self.got(publication)

    def say(self, text):
        print(text, file=sys.stderr, flush=True)

    def got(self, publication):
        self.offset = publication["offset"]
        print(self.offset, json.dumps(publication["data"]), flush=True)


if __name__ == "__main__":
    if sys.argv[1:] in (["-h"], ["--help"]):
        sys.exit(print(__doc__.strip()))
    if len(sys.argv) != 3:
        sys.exit(__doc__)
    try:
        asyncio.run(Follower(sys.argv[1], sys.argv[2]).follow())
    except KeyboardInterrupt:
        pass
