"""What the scripts beside this file share: what has to be so, and a client program whose output is read while it runs."""
import json
import os
import subprocess
import sys
import tempfile

HERE = os.path.dirname(os.path.abspath(__file__))
sys.path.insert(0, os.path.join(HERE, "..", "tools"))

from program import Fails  # noqa: E402


def expect(what, found, wanted):
    if found != wanted:
        raise Fails(f"{what}: {found}, and not {wanted}")


def whole_lines(file):
    """The lines that somebody else has written to a file, whose place in it stays."""
    return os.pread(file.fileno(), os.fstat(file.fileno()).st_size, 0).decode().split("\n")[:-1]


def publication_in(line):
    """Offset and data of the publication that a line tells."""
    offset, data = line.split(" ", 1)
    return int(offset), json.loads(data)


class Follower:
    """A client program that follows a channel, and what it has printed: a line for each publication, and for what else it says."""

    def __init__(self, name, words, publication_of=publication_in, **how):
        self.name, self.publication_of = name, publication_of
        self.heard, self.said = tempfile.TemporaryFile(), tempfile.TemporaryFile()
        self.process = subprocess.Popen(words, stdout=self.heard, stderr=self.said, **how)

    def publications(self):
        """Offset and data of each publication that it has printed."""
        return [found for found in map(self.publication_of, whole_lines(self.heard)) if found]

    def notes(self):
        """What else it has printed: how its subscriptions began."""
        return [line for line in whole_lines(self.heard) if not self.publication_of(line)] + whole_lines(self.said)

    def end(self):
        self.process.kill()
        self.process.wait()
