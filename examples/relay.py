"""A relay between clients and the server, whose connections are lost on demand."""
import asyncio


class Relay:
    """Passes connections on to the server, cuts all of them on demand, takes no new ones while it is away, and brings nothing back to
    the clients while it is deaf, not even an end."""

    def __init__(self, port):
        self.to = port
        self.open = set()
        self.is_away = False
        self.is_deaf = False

    async def start(self):
        self.listener = await asyncio.start_server(self.serve, "127.0.0.1", 0)
        return self.listener.sockets[0].getsockname()[1]

    async def serve(self, reader, writer):
        if self.is_away:
            writer.transport.abort()
            return
        try:
            far_reader, far_writer = await asyncio.open_connection("127.0.0.1", self.to)
        except OSError:
            writer.close()
            return
        self.open |= {writer, far_writer}
        await asyncio.gather(self.pump(reader, far_writer), self.pump(far_reader, writer, True))
        self.open -= {writer, far_writer}

    async def pump(self, reader, writer, is_back=False):
        try:
            while data := await reader.read(65536):
                if is_back and self.is_deaf:
                    continue
                writer.write(data)
                await writer.drain()
        except OSError:
            pass
        if not (is_back and self.is_deaf):
            writer.close()

    def cut(self):
        for writer in list(self.open):
            writer.transport.abort()
