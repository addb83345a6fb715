#!/usr/bin/env python3
"""A start into waiting clients, and standard error that nobody reads.

More clients than `serve` has descriptors (64) are there before it has said where it listens, since its standard output takes nothing
yet: it goes on all the same, two times (`--starts`); a connection that waits is counted once, and not once a second. Standard error is a pipe that
is full and that nobody reads, and one whose reader is gone: it ends at the end of its input all the same. With a standard stream closed at the start no socket
has the number of one, and it ends with status 0. It is held up for four seconds, as by a debugger: its health is `ok` as soon as it goes on.
"""
import contextlib
import fcntl
import os
import resource
import signal
import socket
import subprocess
import time

from peers import BOOTS, Fails, Server, connected, run

DESCRIPTORS, CLIENTS = 64, 90
FULL = 4096   # bytes that a pipe of one page takes


def free_port():
    with socket.socket() as one:
        one.bind(("127.0.0.1", 0))
        return one.getsockname()[1]


def clients_at(port):
    """So many clients, once somebody listens."""
    until = time.monotonic() + 20
    while time.monotonic() < until:
        with contextlib.suppress(OSError):
            return [connected(port) for _ in range(CLIENTS)]
        time.sleep(0.01)
    raise Fails("nobody listened within 20 seconds")


def crowded(program):
    """Starts into more clients than there are descriptors, while standard output takes nothing: what is wrong, and what was said on
    standard error until they leave. (Then others may come for whom there is no descriptor yet.)"""
    port, (reads, writes) = free_port(), full_pipe()
    command = [program, "serve", "--boot", str(next(BOOTS)), "--port", str(port)]
    process = subprocess.Popen(command, stdin=subprocess.PIPE, stdout=writes, stderr=subprocess.PIPE, text=True,
                               preexec_fn=lambda: resource.setrlimit(resource.RLIMIT_NOFILE, (DESCRIPTORS, DESCRIPTORS)))
    os.close(writes)
    sockets = clients_at(port)
    time.sleep(0.5)
    line = os.read(reads, FULL + 100)[FULL:] or os.read(reads, 100)
    time.sleep(2.2)
    status, said = process.poll(), so_far(process.stderr)
    for made in sockets:
        made.close()
    more = process.communicate(timeout=20)[1]
    os.close(reads)
    if not line.startswith(b"node 0") or status is not None:
        return f"ended with status {process.returncode}: {(said + more)[-80:]!r}", said
    return "", said


def so_far(pipe):
    """What was written to a pipe that nobody has read yet."""
    os.set_blocking(pipe.fileno(), False)
    try:
        return os.read(pipe.fileno(), FULL).decode()
    except BlockingIOError:
        return ""
    finally:
        os.set_blocking(pipe.fileno(), True)


def full_pipe():
    """The end of a pipe that has something to read and takes nothing more, and the other."""
    reads, writes = os.pipe()
    os.write(writes, b"x" * fcntl.fcntl(writes, fcntl.F_SETPIPE_SZ, FULL))
    return reads, writes


def ends(program, words, **streams):
    """What `serve` ends with at the end of its input, with 90 clients at 64 descriptors; None if it doesn't."""
    command = [program, "serve", "--boot", str(next(BOOTS))]
    process = subprocess.Popen(["sh", "-c", f'exec "$@" {words}', "sh", *command], stdout=subprocess.PIPE, text=True,
                               preexec_fn=lambda: resource.setrlimit(resource.RLIMIT_NOFILE, (DESCRIPTORS, DESCRIPTORS)), **streams)
    line = process.stdout.readline()
    sockets = []
    if line.startswith("node 0"):
        port = int(line.rsplit(":", 1)[1])
        sockets = [connected(port) for _ in range(CLIENTS)]
        time.sleep(1.5)
    if process.stdin:
        process.stdin.close()
    try:
        return process.wait(8)
    except subprocess.TimeoutExpired:
        process.kill()
        process.wait()
        return None
    finally:
        for made in sockets:
            made.close()


def closed(program, words):
    """What is wrong if `serve` is started with a standard stream closed; nothing if all is well."""
    port = free_port()
    command = [program, "serve", "--boot", str(next(BOOTS)), "--port", str(port)]
    process = subprocess.Popen(["sh", "-c", f'exec "$@" {words}', "sh", *command], stdin=subprocess.PIPE, stdout=subprocess.DEVNULL,
                               stderr=subprocess.DEVNULL)
    try:
        sockets = [] if words == "<&-" else clients_at(port)
        time.sleep(0.2)
        taken = [at for at in range(3) if process.poll() is None and "socket" in os.readlink(f"/proc/{process.pid}/fd/{at}")]
        process.stdin.close()
        status = process.wait(20)
        for made in sockets:
            made.close()
        return f"{words}: a socket is number {taken}" if taken else f"{words}: status {status}" if status else ""
    except (OSError, subprocess.TimeoutExpired) as why:
        return f"{words}: {why}"
    finally:
        process.kill()
        process.wait()


def health(port):
    with connected(port) as asks:
        asks.sendall(b"GET /health HTTP/1.0\r\n\r\n")
        return asks.recv(4096)[9:12].decode()


def check(program, seconds, starts):
    faults = []
    for _ in range(starts):
        fault, said = crowded(program)
        faults += [f"a start into {CLIENTS} clients {fault}"] if fault else []
        counted = said.count(" more, ")
        if counted > 1:
            faults.append(f"what waits was counted {counted} times")
    reads, writes = full_pipe()
    for words, end, pipe in [("full", reads, writes), ("without a reader", *os.pipe())]:
        if words == "without a reader":
            os.close(end)
        status = ends(program, "", stdin=subprocess.PIPE, stderr=pipe)
        if status != 0:
            faults.append(f"standard error {words}: status {status}")
        os.close(pipe)
    faults += [fault for words in ("<&-", ">&-", "2>&-", ">&- 2>&-") if (fault := closed(program, words))]
    with Server(program) as server:
        time.sleep(0.5)
        os.kill(server.process.pid, signal.SIGSTOP)
        time.sleep(4)
        asks = connected(server.port)
        asks.sendall(b"GET /health HTTP/1.0\r\n\r\n")
        os.kill(server.process.pid, signal.SIGCONT)
        found = asks.recv(4096)[9:12].decode()
        if found != "200" or health(server.port) != "200":
            faults.append(f"the health after a pause: {found}")
    return not faults, "; ".join(faults) or f"{starts} of {starts} starts into {CLIENTS} waiting clients, what waits is counted once; ends with standard error full, and without a reader; no socket is a standard stream; well after a pause"


if __name__ == "__main__":
    run(check, 0, starts=2)
