"""A peer of `mdbox serve` that sends each request only when it has the reply to the one before, for the scripts beside this file."""

import importlib.machinery
import os
import subprocess
import types

ID = "0011223344556677"
# How much is read at once, as much as a pipe holds.
PIECE = 1 << 16


def message(size):
    """A message of so many octets, in lines of 72."""
    head = b"From: a@example.org\nTo: b@example.org\nSubject: one of a session\n\n"
    line = b"The quick brown fox jumps over the lazy dog, again and again and again.\n"
    return (head + line * (size // len(line) + 1))[:size]


def attached(size, name=b"b1"):
    """A message with an attachment of so many octets."""
    head = b"From: a@example.org\r\nMIME-Version: 1.0\r\nContent-Type: multipart/mixed; boundary=%s\r\n\r\n" % name
    return head + b"--%s\r\nContent-Type: application/octet-stream\r\n\r\n" % name + b"a" * size + b"\r\n--%s--\r\n" % name


def named(name):
    """A mailbox's name as requests have it."""
    return b"%d:%s" % (len(name), name)


def delivery(name, octets, lane=1, received=1694498816):
    return b"%d deliver %s %d %d\n%s\n" % (lane, named(name), received, len(octets), octets)


def on_one_lane(requests):
    """The same requests, all of lane 1."""
    return [b"1 " + request.split(b" ", 1)[1] for request in requests]


def new_store(program, folder):
    """A new store in this folder, which is made."""
    os.mkdir(folder)
    subprocess.run([program, "init", ID], cwd=folder, stdin=subprocess.DEVNULL, stdout=subprocess.DEVNULL, check=True)
    return folder


def batch(program, folder, requests):
    """What `batch 1` makes of these requests: its status, and what it prints and tells."""
    done = subprocess.run([program, "batch", "1"], cwd=folder, input=b"".join(requests), capture_output=True, check=False)
    return done.returncode, done.stdout, done.stderr


class Gone(Exception):
    """The session's output ended where a reply was awaited."""


class Replies:
    """The replies that stand in a session's output, one behind another."""

    def __init__(self, read=b""):
        self.read = read
        self.place = 0

    def more(self):
        raise Gone

    def until(self, place):
        while len(self.read) < place:
            self.more()

    def line_end(self, place):
        """Where the line ends that begins there."""
        while (end := self.read.find(b"\n", place)) < 0:
            place = len(self.read)
            self.more()
        return end + 1

    def reply(self, request):
        """The whole reply to this request, once it is there."""
        end = self.line_end(self.place)
        words = self.read[self.place : end].split()
        if words[2] == b"OK" and b" list " in request[:9]:
            for _ in range(int(words[3])):
                end = self.line_end(end)
        elif words[2] == b"OK" and b" fetch " in request[:10]:
            end += int(words[3]) + 1
            self.until(end)
        begin, self.place = self.place, end
        return self.read[begin:end]

    def forget(self):
        """Lets go what was read."""
        self.read, self.place = self.read[self.place :], 0


class Session(Replies):
    """A session, whose words may begin with those of a tracer."""

    def __init__(self, words, folder, **how):
        super().__init__()
        how = {"stdin": subprocess.PIPE, "stdout": subprocess.PIPE, "stderr": subprocess.PIPE, **how}
        self.child = subprocess.Popen([*words, "serve"], cwd=folder, bufsize=0, **how)

    def send(self, octets):
        """Writes all of it, as far as the session takes it."""
        while octets:
            octets = octets[self.child.stdin.write(octets) :]

    def more(self):
        got = os.read(self.child.stdout.fileno(), PIECE)
        if not got:
            raise Gone
        self.read += got

    def ask(self, request):
        self.send(request)
        return self.reply(request)

    def end(self):
        """Ends the input. The status, and what stands on standard error."""
        self.child.stdin.close()
        self.read += self.child.stdout.read()
        told = self.child.stderr.read()
        return self.child.wait(), told

    def memory(self):
        """The resident and the greatest memory of its process, in KiB."""
        with open(f"/proc/{self.child.pid}/status", encoding="ascii") as status:
            found = dict(line.split(":", 1) for line in status)
        return int(found["VmRSS"].split()[0]), int(found["VmHWM"].split()[0])


def script_beside(name):
    """The functions of another script beside this file."""
    path = os.path.join(os.path.dirname(os.path.abspath(__file__)), name)
    module = types.ModuleType(name)
    importlib.machinery.SourceFileLoader(name, path).exec_module(module)
    return module
