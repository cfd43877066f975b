"""Reads storage files by their format alone, and judges each message by the rules of a rebuild of a store without attachments."""

import re

MESSAGE_HEADER = re.compile(rb"\x01\x02N[\x20-\x7e]{10}[0-9a-fA-F]{16}\n", re.S)
REFERENCE = re.compile(rb"([0-9a-f]{2})/([0-9a-f]{2})/([0-9a-f]{40})-([0-9a-f]{32})")
FORM = re.compile(rb"-|B([1-9]\d*)C?")
LARGEST_BLOCK, LARGEST_NUMBER, LARGEST_WHOLE = 1_048_576, 4_294_967_295, 67_108_864


def header_end(octets):
    """The end of a file's header line, and the size of message headers. None if no header line begins the file."""
    found = re.match(rb"2((?: [A-Za-z][A-Za-z0-9]*)+)\n", octets[:512])
    if not found:
        return None
    fields = found[1].decode().split(" ")[1:]
    sizes = [field[1:] for field in fields if field[0] == "M"]
    times = [field[1:] for field in fields if field[0] == "C"]
    if len(sizes) != 1 or not re.fullmatch("[0-9a-fA-F]{1,8}", sizes[0]):
        return None
    if len(times) > 1 or not all(re.fullmatch("[0-9a-fA-F]{1,16}", time) for time in times):
        return None
    return found.end(), int(sizes[0], 16)


def is_begun(octets):
    """Whether fewer than 30 octets begin a message's header: the size's digits that are there leave room for a size that fits."""
    letters = b"\x01\x02N"
    return all(
        octet == letters[place] if place < 3 else 0x20 <= octet <= 0x7E if place < 13 else chr(octet) in "0123456789abcdefABCDEF"
        for place, octet in enumerate(octets)
    ) and int(octets[13:].decode("latin1").ljust(16, "0"), 16) <= LARGEST_NUMBER


def message_at(octets, offset):
    """The body, the lines and the end of the message at an offset; or why none stands there."""
    header = octets[offset : offset + 30]
    if not MESSAGE_HEADER.fullmatch(header):
        return "Truncated" if len(header) < 30 and is_begun(header) else "BadMessage"
    size = int(header[13:29], 16)
    if size > LARGEST_NUMBER:
        return "BadMessage"
    block = offset + 30 + size
    mark = octets[block : block + 4]
    if len(mark) < 4 and b"\n\x01\x03\n".startswith(mark):
        return "Truncated"
    if mark != b"\n\x01\x03\n":
        return "BadMessage"
    if octets[block + 4 : block + 5] == b"\n":
        return octets[offset + 30 : block], [], block + 5
    end = octets.find(b"\n\n", block + 4)
    if end < 0 or end + 2 - block > LARGEST_BLOCK:
        return "BadMessage" if len(octets) - block >= LARGEST_BLOCK else "Truncated"
    return octets[offset + 30 : block], octets[block + 4 : end].split(b"\n"), end + 2


def is_name(octets):
    try:
        octets.decode("utf-8")
    except UnicodeDecodeError:
        return False
    return 1 <= len(octets) <= 255 and not any(octet < 0x20 or octet == 0x7F for octet in octets)


def references(value):
    """The counts of the references in an X line. None if it is bad."""
    words = value.split(b" ")
    counts = []
    for place in range(0, len(words), 4):
        if len(words) < place + 4:
            return None
        start, count, form, name = words[place : place + 4]
        path, form = REFERENCE.fullmatch(name), FORM.fullmatch(form)
        if not path or not form or path[1] + path[2] != path[3][:4] or not start.isdigit() or not count.isdigit():
            return None
        if form[1] and (int(form[1]) % 4 or not 4 <= int(form[1]) <= 996):
            return None
        if int(start) > LARGEST_NUMBER or not 1 <= int(count) <= LARGEST_NUMBER:
            return None
        counts.append(int(count))
    return counts


def metadata(lines):
    """The known values of metadata lines by their keys. None if a line is bad."""
    known = {}
    for line in lines:
        key, value = line[:1], line[1:]
        if key == b"G" and not re.fullmatch(rb"[0-9a-fA-F]{32}", value) or key == b"B" and not is_name(value):
            continue
        if key in b"RZV" and not re.fullmatch(rb"[0-9a-fA-F]{1,16}", value):
            return None
        if key in b"RZVGBX" and key in known or key == b"X" and references(value) is None:
            return None
        if key in b"RZVGBX":
            known[key] = value
    return known


def judge(octets):
    """What a rebuild of one storage file takes and skips: the lines that it prints of it, and the messages of each mailbox."""
    header = header_end(octets)
    if not header or header[1] != 30:
        return [f"SKIPPED 1 0 {'HeaderSize' if header else 'BadHeader'}"], {b"INBOX": 0}
    skipped, boxes, taken, offset = [], {b"INBOX": 0}, {}, header[0]
    while offset < len(octets):
        found = message_at(octets, offset)
        if isinstance(found, str):
            skipped.append(f"SKIPPED 1 {offset} {found}")
            break
        body, lines, end = found
        why = verdict(body, metadata(lines), taken, boxes, end)
        if why:
            skipped.append(f"SKIPPED 1 {offset} {why}")
        offset = end
    return skipped, boxes


def verdict(body, known, taken, boxes, end):
    """Why a message is skipped. None if it is taken, or passed over."""
    if known is None:
        return "BadLine"
    if b"G" not in known:
        return "NoGuid"
    if b"X" in known:
        return "NoInstance"
    if int(known.get(b"Z", b"%x" % len(body)), 16) != len(body):
        return "Compressed" if body[:2] == b"\x1f\x8b" else "SizeDiffers"
    guid, box = known[b"G"].lower(), known.get(b"B", b"INBOX")
    if guid in taken:
        return None if taken[guid] == body else "GuidTwice"
    if len(body) > LARGEST_WHOLE or end > LARGEST_NUMBER or box not in boxes and len(boxes) == 1024:
        return "TooMany"
    taken[guid] = body
    boxes[box] = boxes.get(box, 0) + 1
    return None
