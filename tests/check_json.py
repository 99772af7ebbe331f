#!/usr/bin/env python3
"""check_json.py PROGRAM: whether another reader of JSON finds the records that PROGRAM wrote as lines, and PROGRAM those that another
writer wrote. The last line is 'N passed, M failed'."""
import json
import os
import subprocess
import sys
import tempfile

FORBIDDEN = (0x1D, 0x1E, 0x1F)
FIXED = "240101s1999    xx                  eng d"


def frame_of(fields):
    """The frame of these fields, each a tag and its bytes."""
    directory = b""
    data = b""
    for tag, body in fields:
        body += b"\x1e"
        directory += b"%s%04d%05d" % (tag.encode(), len(body), len(data))
        data += body
    base = 24 + len(directory) + 1
    size = base + len(data) + 1
    return b"%05dnam a22%05d a 4500" % (size, base) + directory + b"\x1e" + data + b"\x1d"


def texts():
    """Texts that have each character from U+0000 to U+10FFFF once, but for surrogates and the three bytes that part records, fields
    and subfields."""
    part = ""
    size = 0
    for code in range(0x110000):
        if 0xD800 <= code <= 0xDFFF or code in FORBIDDEN:
            continue
        part += chr(code)
        size += 1 if code < 0x80 else 2 if code < 0x800 else 3 if code < 0x10000 else 4
        if size > 4000:
            yield part
            part, size = "", 0
    yield part


def records():
    """Records of two such texts a field, and ten such fields a record."""
    every = list(texts())
    found = []
    for start in range(0, len(every), 20):
        fields = [("001", "c%d" % start), ("008", FIXED), ("245", [("a", "Cat")])]
        parts = every[start : start + 20]
        for at in range(0, len(parts), 2):
            fields.append(("500", [("a", text) for text in parts[at : at + 2]]))
        found.append(fields)
    return found


def frame_bytes(fields):
    bodies = []
    for tag, content in fields:
        if isinstance(content, str):
            bodies.append((tag, content.encode()))
        else:
            body = b"00" + b"".join(b"\x1f" + code.encode() + text.encode() for code, text in content)
            bodies.append((tag, body))
    return frame_of(bodies)


def value_of(fields):
    """The value in JSON, its keys in another order than the program's."""
    listed = []
    for tag, content in fields:
        if isinstance(content, str):
            listed.append({tag: content})
        else:
            subfields = [{code: text} for code, text in content]
            listed.append({tag: {"subfields": subfields, "ind2": "0", "ind1": "0"}})
    return {"leader": "12345nam a2254321 a 4500", "fields": listed, "beside": [None, 1.5, {"x": []}]}


def fields_in(value):
    fields = []
    for field in value["fields"]:
        ((tag, content),) = field.items()
        if isinstance(content, dict):
            assert (content["ind1"], content["ind2"]) == ("0", "0") and len(content) == 3
            content = [next(iter(subfield.items())) for subfield in content["subfields"]]
        fields.append((tag, content))
    return fields


def run(program, word, data):
    with tempfile.TemporaryDirectory() as folder:
        path = os.path.join(folder, "in")
        with open(path, "wb") as file:
            file.write(data)
        done = subprocess.run([program, word, "LIBA=" + path], stdin=subprocess.DEVNULL, capture_output=True)
    return done.returncode, done.stdout, done.stderr


def written_lines_are_read(program, wanted):
    status, out, notes = run(program, "tojson", b"".join(frame_bytes(fields) for fields in wanted))
    count = len(wanted)
    lines = out.decode().split("\n")
    values = [json.loads(line) for line in lines[:-1]]
    return (
        status == 0
        and notes == b"LIBA frames %d written %d refused 0\n" % (count, count)
        and lines[-1] == ""
        and all(value["leader"] == "00000nam a2200000 a 4500" and len(value) == 2 for value in values)
        and [fields_in(value) for value in values] == wanted
    )


def lines_of_others_are_read(program, wanted):
    frames = b"".join(frame_bytes(fields) for fields in wanted)
    count = len(wanted)
    right = True
    for escaped in (True, False):
        lines = "".join(json.dumps(value_of(fields), ensure_ascii=escaped) + "\r\n\n" for fields in wanted)
        status, out, notes = run(program, "fromjson", lines.encode())
        right = right and (status, out) == (0, frames) and notes == b"LIBA lines %d written %d refused 0\n" % (count, count)
    return right


def main():
    program = sys.argv[1]
    wanted = records()
    failed = 0
    for name, test in (("tojson", written_lines_are_read), ("fromjson", lines_of_others_are_read)):
        if not test(program, wanted):
            failed += 1
            print("FAILED json-%s: the records are others" % name)
    print("%d passed, %d failed" % (2 - failed, failed))
    sys.exit(1 if failed else 0)


main()
