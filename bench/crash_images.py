"""What a crash of the machine may leave of a folder, from a trace of the system calls that changed it, for the scripts beside this file.

An octet that was written since the last sync of its file may have any value, and the file any length that it had since; a name that was
made or removed since the last sync of its folder may stand or not (docs/files-of-the-system.md). Of all these images some are made: the
oldest and the newest octets, and others in their place, under the oldest and the newest names; and a few at random.
"""

import os
import random
import re

CALLS = "openat,mkdir,pwrite64,ftruncate,fsync,unlink,rename,write"
OPTIONS = ["-f", "-y", "-xx", "-s", "4000000", "-e", f"trace={CALLS}"]
CALL = re.compile(r"^\d+ +(\w+)\((.*)\) += (-?\d+)")
FOLDER, LOCK = None, "mdbox.lock"


class File:
    """A file's octets as the last sync left them, and as they are read; and all lengths since."""

    def __init__(self, octets=b""):
        self.kept, self.now, self.least = octets, octets, len(octets)

    def write(self, place, octets):
        self.now = self.now[:place].ljust(place, b"\0") + octets + self.now[place + len(octets) :]

    def cut(self, size):
        self.now = self.now[:size].ljust(size, b"\0")
        self.least = min(self.least, size)

    def sync(self):
        self.kept, self.least = self.now, len(self.now)

    def other(self):
        """As long as it is read; what was written since the last sync has another value."""
        kept = self.kept.ljust(len(self.now), b"\0")
        return bytes(new if new == old and place < self.least else new ^ 0x55 for place, (new, old) in enumerate(zip(self.now, kept)))

    def mixed(self, chance):
        """Each octet as it was, as it is read or otherwise; and any length."""
        size = chance.choice([len(self.kept), len(self.now), chance.randint(self.least, max(len(self.kept), len(self.now)))])
        old, new, other = (text.ljust(size, b"\0") for text in (self.kept, self.now, self.other()))
        if old == new:
            return new[:size]
        cuts = sorted(chance.randint(0, size) for _ in range(3))
        return b"".join(chance.choice([old, new, other])[a:b] for a, b in zip([0, *cuts], [*cuts, size]))


class Folder:
    """The files of a folder, and which of its names are durable."""

    def __init__(self, top):
        self.top = os.path.realpath(top)
        self.names = {}
        for path, folders, files in os.walk(self.top):
            here = path[len(self.top) :]
            self.names.update({f"{here}/{name}": FOLDER for name in folders})
            for name in files:
                if name == LOCK:
                    continue
                with open(f"{path}/{name}", "rb") as octets:
                    self.names[f"{here}/{name}"] = File(octets.read())
        self.kept = dict(self.names)
        self.printed = 0

    def path(self, text):
        """The path of a file or name below the folder, or None."""
        text = bytes.fromhex(text.replace("\\x", "")).decode() if text.startswith("\\x") else text
        text = text if text.startswith("/") else f"{self.top}/{text}"
        return text[len(self.top) :] if text.startswith(self.top) else None

    def do(self, line):
        """Takes in a call of the trace. Whether it changed anything, or printed."""
        found = CALL.match(line)
        if not found or int(found[3]) < 0:
            return False
        name, words, answer = found[1], found[2], int(found[3])
        if name == "write":
            self.printed += answer if words.startswith("1<") else 0
            return words.startswith("1<")
        opened = re.match(r"\d+<([^>]*)>", words)
        path = self.path(opened[1] if opened and name != "openat" else re.findall(r'"([^"]*)"', words)[0])
        if path is None or path == f"/{LOCK}":
            return False
        if name == "openat" and ("O_CREAT" not in words or path in self.names):
            return False
        if name == "fsync":
            self.sync(path)
        elif name in ("openat", "mkdir"):
            self.names[path] = File() if name == "openat" else FOLDER
        elif name == "unlink":
            self.names.pop(path)
        elif name == "ftruncate":
            self.names[path].cut(int(words.rsplit(", ", 1)[1]))
        elif name == "pwrite64":
            octets, _, place = re.search(r'"([^"]*)", (\d+), (\d+)$', words).groups()
            self.names[path].write(int(place), bytes.fromhex(octets.replace("\\x", ""))[:answer])
        else:
            raise ValueError(line)
        return True

    def octets(self):
        """What each file reads as, and which folders there are."""
        return {path: one.now if isinstance(one, File) else FOLDER for path, one in self.names.items()}

    def sync(self, path):
        """Syncs a file, or the names in a folder."""
        if isinstance(self.names.get(path), File):
            self.names[path].sync()
            return
        for one in {*self.kept, *self.names}:
            if os.path.dirname(one) == (path or "/"):
                if one in self.names:
                    self.kept[one] = self.names[one]
                else:
                    self.kept.pop(one, None)

    def image(self, of_name, of_file):
        """The image that these choices make: of a name whether it is as durable or as it is now, of a file its octets."""
        found = {}
        for path in sorted({*self.kept, *self.names}):
            names = self.kept if self.kept.get(path, 0) is self.names.get(path, 0) or of_name(path) else self.names
            if path in names and (os.path.dirname(path) in ("/", "") or os.path.dirname(path) in found):
                found[path] = of_file(names[path]) if isinstance(names[path], File) else FOLDER
        return found

    def images(self, seed):
        """Some images of a crash now."""
        chance = random.Random(seed)
        oldest, newest, any_name = (lambda _: True), (lambda _: False), (lambda _: chance.random() < 0.5)
        for of_name in (oldest, newest):
            for of_file in ((lambda one: one.kept), (lambda one: one.now), (lambda one: one.other())):
                yield self.image(of_name, of_file)
        for _ in range(3):
            yield self.image(any_name, lambda one: one.mixed(chance))


def write_image(image, top):
    """Lays an image out in a new folder."""
    os.mkdir(top)
    for path, octets in image.items():
        if octets is FOLDER:
            os.mkdir(top + path)
        else:
            with open(top + path, "wb") as out:
                out.write(octets)
