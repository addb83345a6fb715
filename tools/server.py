"""`cf_server serve`, as the scripts start it: by itself, or by examples/run-serve, as a service is run."""
import itertools
import os
import resource
import signal
import subprocess
import time

from program import TOP, Fails

BOOTS = itertools.count(int(time.time() * 1000))


class Server:
    """`serve` on its own ports. What it says on standard error goes to `said`. Used in `with`, behind which it is gone."""

    def __init__(self, program, nodes=1, words=(), descriptors=None, said=subprocess.DEVNULL):
        def limit():
            if descriptors:
                resource.setrlimit(resource.RLIMIT_NOFILE, (descriptors, descriptors))

        command = [program, "serve", "--boot", str(next(BOOTS)), "--nodes", str(nodes), *words]
        self.process = subprocess.Popen(command, stdin=subprocess.PIPE, stdout=subprocess.PIPE, stderr=said, text=True,
                                        preexec_fn=limit)
        self.ports = [self.port_of(self.process.stdout.readline()) for _ in range(nodes)]
        self.port = self.ports[0]

    def port_of(self, line):
        if not line.startswith("node "):
            raise Fails(f"serve printed {line!r} and no port")
        return int(line.rsplit(":", 1)[1])

    def __enter__(self):
        return self

    def __exit__(self, kind, *_):
        try:
            if kind is None:
                self.end()
        finally:
            self.process.kill()
            self.process.wait()

    def end(self):
        """Ends it by its standard input."""
        self.process.stdin.close()
        try:
            status = self.process.wait(20)
        except subprocess.TimeoutExpired:
            raise Fails("serve had not ended 20 seconds after its input") from None
        if status:
            raise Fails(f"serve ended with status {status}")

    def seconds(self):
        """The processor time that it has taken."""
        with open(f"/proc/{self.process.pid}/stat") as file:
            fields = file.read().rsplit(")", 1)[1].split()
        return (int(fields[11]) + int(fields[12])) / os.sysconf("SC_CLK_TCK")

    def descriptors(self):
        """How many descriptors it has open."""
        return len(os.listdir(f"/proc/{self.process.pid}/fd"))

    def bytes(self):
        """The memory that it holds."""
        with open(f"/proc/{self.process.pid}/status") as file:
            return 1024 * next(int(line.split()[1]) for line in file if line.startswith("VmRSS"))


class Service:
    """`serve` by examples/run-serve, which keeps its boot numbers in the directory `state`, on these ports one behind another."""

    def __init__(self, program, state, port, nodes=1, words=(), before=(), **how):
        command = [*before, f"{TOP}/examples/run-serve", program, state, "--nodes", str(nodes), "--port", str(port), *words]
        self.process = subprocess.Popen(command, stdout=subprocess.PIPE, text=True, **how)
        lines = [self.process.stdout.readline().strip() for _ in range(nodes)]
        if lines != [f"node {node} 127.0.0.1:{port + node}" for node in range(nodes)]:
            raise Fails(f"the server at port {port} says {lines}")

    def end(self, number=signal.SIGTERM):
        """Ends it by a signal, and gives its status."""
        self.process.send_signal(number)
        return self.process.wait(20)
