"""Writes the files of a store, by their formats alone, for the benchmarks beside this file."""

import os
import random

STORE = bytes.fromhex("0011223344556677")
FIRST_TIME = 0x65000000
LARGEST_FILE = 10_485_760
LEAST_SIZE, LARGEST_SIZE = 2_000, 12_000


class Message:
    """A message, and where the store has it."""

    def __init__(self, number, sizes, least=LEAST_SIZE, largest=LARGEST_SIZE):
        self.number = number
        self.flags = number % 32
        self.time = FIRST_TIME + number
        head = b"From: a@example.org\nTo: b@example.org\nSubject: message %d\n\n" % number
        line = b"The quick brown fox jumps over the lazy dog, again and again and again.\n"
        size = sizes.randint(least, largest)
        self.octets = (head + line * (size // len(line) + 1))[:size]

    def stored(self, file, offset):
        """Its octets in a storage file, from its header to the empty line behind its metadata."""
        self.file, self.offset = file, offset
        self.guid = STORE + file.to_bytes(4, "big") + offset.to_bytes(4, "big")
        size = len(self.octets)
        header = b"\x01\x02N" + b" " * 10 + b"%016X\n" % size
        virtual = size + self.octets.count(b"\n") - self.octets.count(b"\r\n")
        metadata = f"R{self.time:x}\nV{virtual:x}\nG{self.guid.hex()}\nBINBOX\n\n".encode()
        region = header + self.octets + b"\n\x01\x03\n" + metadata
        self.region_size = len(region)
        return region

    def stored_entry(self):
        """The entry of the map log that stores it, with count 1."""
        numbers = (self.number, self.file, self.offset, self.region_size)
        return b"S\x00\x00\x01" + b"".join(map(four, numbers)) + self.guid + b"\x00\x00"

    def added_entry(self):
        """The entry of the mailbox log that adds it."""
        time, size = self.time.to_bytes(8, "big"), four(len(self.octets))
        return b"A" + four(self.number) + bytes([self.flags]) + time + size + four(self.number) + self.guid + b"\x00"

    def removed_entry(self):
        """The entry of the mailbox log that removes it."""
        return b"R" + four(self.number)

    def lowered_entry(self):
        """The entry of the map log that lowers its count."""
        return b"D" + four(1) + four(self.number)

    def flagged_entry(self, flags):
        """The entry of the mailbox log that sets its flags."""
        return b"F" + four(self.number) + bytes([flags])

    def row(self):
        """The line that lists it."""
        return f"{self.number} {self.flags} {len(self.octets)} {self.time} {self.guid.hex()}\n"


def four(number):
    return number.to_bytes(4, "big")


def write_log(path, kind, number, generation, entries):
    """Writes a log of the version of its kind: its head, an open gate and a record for each entry, and the last gate."""
    magic = b"MDBXLOG2" if kind == b"B" else b"MDBXLOG1"
    records = b"".join(b"\x01" + four(len(entry)) + entry for entry in entries)
    with open(path, "wb") as out:
        out.write(magic + STORE + kind + four(number) + four(generation) + records + b"\x00")


def write_mail_files(folder, messages):
    """Writes the messages one behind another, into as few storage files as their size allows."""
    file, written, out = 0, LARGEST_FILE, None
    for message in messages:
        region = message.stored(file, written)
        if written + len(region) > LARGEST_FILE:
            if out:
                out.close()
            file += 1
            out = open(os.path.join(folder, f"m.{file}"), "wb")
            written = out.write(b"2 M1e C%x\n" % message.time)
            region = message.stored(file, written)
        written += out.write(region)
    out.close()


def flag_entries(messages, times):
    """Entries of the mailbox log that set flags so many times, of one message after another; the last ones are the messages' own."""
    count = len(messages)
    for time in range(times):
        one = messages[time % count]
        yield one.flagged_entry(one.flags if time >= times - count else (one.number + time // count) % 32)


def write_logs(folder, messages, expunged=(), flags=0, generation=1, beside=False):
    """Writes the logs of a store of these messages, of which some were expunged, and whose flags were set so many times; INBOX's log
    has this generation."""
    storage, mailboxes = (os.path.join(folder, name) for name in ("storage", "mailboxes"))
    boxes = [b"B" + four(1) + four(generation) + b"\x05INBOX", b"B" + four(2) + four(1) + (b"\x03BIG" if beside else b"\x05EMPTY")]
    stored = [one.stored_entry() for one in messages]
    lowered = [one.lowered_entry() for one in expunged]
    added = [one.added_entry() for one in messages]
    removed = [one.removed_entry() for one in expunged]
    write_log(os.path.join(storage, "root.log"), b"R", 0, 0, [b"M" + four(1)])
    write_log(os.path.join(storage, "map.1.log"), b"M", 0, 1, boxes + stored + lowered)
    logs = [[], added + removed] if beside else [added + [*flag_entries(messages, flags)] + removed, []]
    for number, log in enumerate(logs, 1):
        own = generation if number == 1 else 1
        write_log(os.path.join(mailboxes, f"b.{number}.{own}.log"), b"B", number, own, log)


def write_store(folder, count, half=False, last=None, second=False, least=LEAST_SIZE, largest=LARGEST_SIZE, beside=False, flags=0):
    """Writes a store of so many messages in INBOX, beside which there is an empty mailbox, EMPTY, into a folder. If only half
    of them are to stay, the others are expunged in any order; or every second one is; if the last one's octets are given, it has
    these; flags were set so many times. They may be in the mailbox beside INBOX, which is BIG then, and INBOX empty. Answers all
    messages, and those that stay."""
    sizes = random.Random(count)
    messages = [Message(number, sizes, least, largest) for number in range(1, count + 1)]
    if last is not None:
        messages[-1].octets = last
    expunged = sizes.sample(messages, count // 2) if half else messages[1::2] if second else []
    for name in ("storage", "mailboxes"):
        os.mkdir(os.path.join(folder, name))
    write_mail_files(os.path.join(folder, "storage"), messages)
    write_logs(folder, messages, expunged, flags, beside=beside)
    gone = {one.number for one in expunged}
    return messages, [one for one in messages if one.number not in gone]


def write_maildir(folder, messages):
    """Writes the messages as a Maildir, with their times."""
    for name in ("cur", "new", "tmp"):
        os.makedirs(os.path.join(folder, name))
    for one in messages:
        path = os.path.join(folder, "cur", f"{one.time}.M{one.number}.bench:2,")
        with open(path, "wb") as out:
            out.write(one.octets)
        os.utime(path, (one.time, one.time))
