"""The cuts of a file and the nineteen rules, written down a second time, from docs/FORMATS.md and apart from the program: what `check`
must say of a file, whatever its bytes."""

LARGEST_FRAME = 99_999
LOADS, WITHDRAWS = b"acnp", b"d"
SINGLE_FIELDS = (b"003", b"005", b"010", b"040", b"240")
MAIN_ENTRIES = (b"100", b"110", b"111", b"130")
ALPHANUMERIC = frozenset(b"0123456789ABCDEFGHIJKLMNOPQRSTUVWXYZabcdefghijklmnopqrstuvwxyz")


def cuts(stream):
    """The frames of a stream, and whether each has its record terminator."""
    at, size = 0, len(stream)
    while True:
        while at < size and stream[at] in b"\r\n":
            at += 1
        if at == size:
            return
        end = stream.find(b"\x1d", at) + 1
        yield stream[at : end or size], end > 0
        if not end:
            return
        at = end


def is_printable(text, least=0x20):
    return all(least <= byte <= 0x7E for byte in text)


def is_utf8(text):
    try:
        text.decode("utf-8")
        return True
    except UnicodeDecodeError:
        return False


def leader_refusal(frame):
    length, base = frame[0:5], frame[12:17]
    if not length.isdigit():
        return "LengthDigits", 0
    if int(length) != len(frame):
        return "LengthDiffers", 0
    if not base.isdigit() or not 25 <= int(base) <= len(frame) - 1 or (int(base) - 25) % 12 or frame[int(base) - 1] != 0x1E:
        return "BaseAddress", 0
    for at, byte in enumerate(frame[:24]):
        wanted = {10: b"2", 11: b"2", 20: b"4", 21: b"5", 22: b"0"}.get(at)
        if not 0x20 <= byte <= 0x7E or wanted and byte != wanted[0]:
            return "LeaderCounts", at
    return None


def directory_refusal(entries, data):
    for at, entry in enumerate(entries, 1):
        if not entry[3:].isdigit():
            return "EntryDigits", at
    for at, entry in enumerate(entries, 1):
        if not all(byte in ALPHANUMERIC for byte in entry[:3]):
            return "Tag", at
    claimed = bytearray(len(data))
    for at, entry in enumerate(entries, 1):
        start, end = int(entry[7:]), int(entry[7:]) + int(entry[3:7])
        if not start < end <= len(data) or data.find(b"\x1e", start) != end - 1 or any(claimed[start:end]):
            return "Tiling", at
        claimed[start:end] = b"\1" * (end - start)
    return None if all(claimed) else ("Tiling", len(entries) + 1)


def coding_refusal(coding, fields):
    if coding not in b" a":
        return "Coding", 0
    for at, (_, text) in enumerate(fields, 1):
        if coding == b" " and any(byte > 0x7F or byte == 0x1B for byte in text):
            return "Coding", at
        if coding == b"a" and not is_utf8(text):
            return "NotUtf8", at
    return None


def is_data_field(text):
    if not is_printable(text[:2]) or text[2:3] != b"\x1f":
        return False
    return all(part and is_printable(part[:1], 0x21) for part in text[2:].split(b"\x1f")[1:])


def shape_refusal(fields):
    for at, (tag, text) in enumerate(fields, 1):
        if tag[:2] == b"00" and b"\x1f" in text:
            return "ControlShape", at
    for at, (tag, text) in enumerate(fields, 1):
        if tag[:2] != b"00" and not is_data_field(text):
            return "DataShape", at
    return None


def places(fields, *tags):
    return [at for at, (tag, _) in enumerate(fields, 1) if tag in tags]


def single(rule, fields, tag, is_right):
    """What is wrong where there is not exactly one field of the tag, or its text is wrong."""
    found = places(fields, tag)
    if not found:
        return rule, 0
    if len(found) > 1:
        return rule, found[1]
    return None if is_right(fields[found[0] - 1][1]) else (rule, found[0])


def is_control_number(text):
    return 1 <= len(text.strip(b" ")) <= 64 and is_printable(text.strip(b" "))


def presence_refusal(status, fields):
    refusal = single("ControlNumber", fields, b"001", is_control_number)
    if refusal or status == WITHDRAWS:
        return refusal
    again = [found[1] for found in [places(fields, tag) for tag in SINGLE_FIELDS] + [places(fields, *MAIN_ENTRIES)] if len(found) > 1]
    if again:
        return "Repeated", min(again)
    return single("Fixed008", fields, b"008", lambda text: len(text) == 40) or single("Title245", fields, b"245", lambda text: True)


def refusal(frame, is_whole=True):
    """The first rule that the frame breaks, with its place; None if it breaks none."""
    if not is_whole:
        return "Truncated", 0
    if len(frame) > LARGEST_FRAME:
        return "TooLong", 0
    if len(frame) < 26:
        return "TooShort", 0
    found = leader_refusal(frame)
    if found:
        return found
    base = int(frame[12:17])
    entries = [frame[at : at + 12] for at in range(24, base - 1, 12)]
    data = frame[base:-1]
    found = directory_refusal(entries, data)
    if found:
        return found
    status, coding = frame[5:6], frame[9:10]
    if status not in LOADS and status != WITHDRAWS:
        return "Status", 0
    fields = [(entry[:3], data[int(entry[7:]) : int(entry[7:]) + int(entry[3:7]) - 1]) for entry in entries]
    return coding_refusal(coding, fields) or shape_refusal(fields) or presence_refusal(status, fields)


def check_text(library, stream):
    """What `check` of the stream writes, and the status of its end."""
    lines, loads, withdraws, number = [], 0, 0, 0
    for number, (frame, is_whole) in enumerate(cuts(stream), 1):
        found = refusal(frame, is_whole)
        if found:
            lines.append("%s refused %d %s %d\n" % (library, number, *found))
        elif frame[5:6] == WITHDRAWS:
            withdraws += 1
        else:
            loads += 1
    refused = len(lines)
    lines.append(f"{library} frames {number} load {loads} withdraw {withdraws} refused {refused}\n")
    return "".join(lines).encode(), int(refused > 0)
