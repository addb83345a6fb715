#!/usr/bin/python3
"""Publishes from a backend, by Debian's python3-websockets: examples/publish.py ws://127.0.0.1:8000 news '{"text": "hello"}'"""
import asyncio, json, sys, uuid

try:
    import websockets
except ImportError:
    sys.exit("publish.py: this python has no websockets: apt-get install python3-websockets, and run it by /usr/bin/python3")

async def publish(server, channel, data):
    key = uuid.uuid4().hex    # one for each thing to say: however often it is sent, it counts once
    for wait in (0, 0.2, 0.5, 1, 2, 5, 10):
        await asyncio.sleep(wait)
        try:
            async with websockets.connect(server) as socket:
                await socket.send(json.dumps({"id": 1, "connect": {}}))
                await socket.send(json.dumps({"id": 2, "publish": {"channel": channel, "data": data, "key": key}}))
                while (reply := json.loads(await socket.recv())).get("id") != 2:
                    pass
            return reply.get("error")    # None: the stream has it
        except (OSError, websockets.WebSocketException):
            pass    # no server, or it ended before it answered: again, under the same key
    return "no server answered"

if __name__ == "__main__":
    if sys.argv[1:] in (["-h"], ["--help"]):
        sys.exit(print(__doc__))
    if len(sys.argv) != 4:
        sys.exit(__doc__)
    try:
        data = json.loads(sys.argv[3])
    except ValueError as fault:
        sys.exit(f"publish.py: the third word is no JSON: {fault}")
    sys.exit(asyncio.run(publish(sys.argv[1], sys.argv[2], data)))
