"""The exports of parts, merged by id, and their notes. Each export is read once; some 64 MB of all are in memory at a time."""

import bisect
import heapq
import json
import os
import re

import numpy as np

from union_ends import FAULT, Ended

# Of each record of an export: where it is, and where its id is there; and the first bytes of the id, with zeros behind a shorter one.
PREFIX = 24
INDEX = np.dtype([("start", "<i8"), ("size", "<i8"), ("at", "<i8"), ("length", "<i8"), ("prefix", f"S{PREFIX}")])
WINDOW = 1 << 26
REPORT = ("added", "replaced", "removed", "absent")


# ---- the index of an export


def index_of(path, is_json):
    with open(path, "rb") as file:
        data = file.read()
    cells = np.frombuffer(data, np.uint8)
    ends = np.flatnonzero(cells == (0x0A if is_json else 0x1D)) + 1
    index = np.empty(len(ends), INDEX)
    index["start"] = np.append(0, ends)[: len(ends)]
    index["size"] = ends - index["start"]
    if is_json:
        ids_of_lines(data, index)
    else:
        ids_of_frames(cells, index)
    if (ends[-1] if len(ends) else 0) != len(data):
        raise Ended(FAULT, "union export wrote half a record; the two programs must be of one version")
    prefix = np.zeros((len(index), PREFIX), np.uint8)
    for place in range(PREFIX):
        has = index["length"] > place
        prefix[has, place] = cells[index["start"][has] + index["at"][has] + place]
    index["prefix"] = prefix.view(f"S{PREFIX}").ravel()
    for number in np.flatnonzero((prefix == 0x5C).any(axis=1)) if is_json else ():
        index["prefix"][number] = id_of(data, index[number], is_json)[:PREFIX]
    return index


def number_at(cells, at, digits):
    """The numbers of so many digits at some places."""
    value = np.zeros(len(at), "<i8")
    for place in range(digits):
        value = value * 10 + cells[at + place] - 0x30
    return value


def ids_of_frames(cells, index):
    """An export's records have the field 001 first."""
    start = index["start"]
    if not (number_at(cells, start + 24, 3) == 1).all():
        raise Ended(FAULT, "union export wrote a record with no id in front; the two programs must be of one version")
    index["at"] = number_at(cells, start + 12, 5) + number_at(cells, start + 31, 5)
    index["length"] = number_at(cells, start + 27, 4) - 1


def ids_of_lines(data, index):
    if not len(index):
        return
    spans = np.array([found.span(1) for found in re.finditer(rb'^\{"fields":\[\{"001":"((?:[^"\\]|\\.)*)"', data, re.M)])
    if len(spans) != len(index):
        raise Ended(FAULT, "union export wrote a line with no id in front; the two programs must be of one version")
    index["at"], index["length"] = spans[:, 0] - index["start"], spans[:, 1] - spans[:, 0]


def id_of(data, row, is_json):
    """The whole id of a record. The bytes of ids are in order of the library's code, and then of the control number."""
    first = row["start"] + row["at"]
    text = data[first : first + row["length"]]
    return json.loads(b'"' + text + b'"').encode() if is_json else text


# ---- the merge


class Part:
    """The export of a part, of which some records were taken."""

    def __init__(self, plan, part):
        path = f"{plan['scratch']}/parts/{part:08}"
        self.file = open(f"{path}.out", "rb", buffering=0)
        index = f"{path}.index"
        self.index = np.memmap(index, INDEX, "r") if os.path.getsize(index) else np.empty(0, INDEX)
        self.taken = 0

    def take(self, bound):
        """The records up to one whose id has at least this front, or all, and their bytes."""
        last = len(self.index) if bound is None else bisect.bisect_left(self.index["prefix"], bound, self.taken)
        rows = np.array(self.index[self.taken : last])
        self.taken = last
        if not len(rows):
            return rows, b""
        data = self.file.read(int(rows["start"][-1] + rows["size"][-1] - rows["start"][0]))
        rows["start"] -= rows["start"][0]
        return rows, data


def bounds_of(parts):
    """The fronts of ids between which all parts have some bytes to be in memory, and None at the end."""
    size = sum(int(part.index["size"].sum()) for part in parts)
    windows = size // WINDOW + 1
    fronts = np.sort(np.concatenate([part.index["prefix"][:: max(1, len(part.index) * len(parts) // (windows * 1024))] for part in parts]))
    return [*(fronts[len(fronts) * number // windows] for number in range(1, windows)), None]


def merge_exports(plan, parts, out):
    """Writes the exports of the parts in order of ids."""
    parts = [Part(plan, part) for part in parts]
    for bound in bounds_of(parts):
        rows, pieces, done = [], [], 0
        for part in parts:
            some, data = part.take(bound)
            some["start"] += done
            done += len(data)
            rows.append(some)
            pieces.append(data)
        rows, data = np.concatenate(rows), b"".join(pieces)
        rows = rows[order_of(rows, data, plan["json"])]
        view, ends = memoryview(data), rows["start"] + rows["size"]
        out.write(b"".join(map(view.__getitem__, map(slice, rows["start"].tolist(), ends.tolist()))))


def order_of(rows, data, is_json):
    """The order of records by their ids, which differ."""
    fronts = np.ascontiguousarray(rows["prefix"]).view(">u8").reshape(-1, PREFIX // 8).astype("u8")
    order = np.lexsort(fronts.T[::-1])
    fronts = fronts[order]
    alike = (fronts[1:] == fronts[:-1]).all(axis=1)
    if alike.any():
        group = np.cumsum(np.append(True, ~alike))
        order = sorted(order.tolist(), key=dict(zip(order.tolist(), tied(rows, data, order, group, is_json))).get)
    return order


def tied(rows, data, order, group, is_json):
    """For each record in order its group of equal fronts, and its whole id."""
    for row, number in zip(order.tolist(), group.tolist()):
        yield number, id_of(data, rows[row], is_json)


# ---- notes


def reports_of(plan, parts):
    """What the parts' reports count, added up for each library."""
    counts = {library: dict.fromkeys(REPORT, 0) for library in plan["paths"]}
    for part in parts:
        with open(f"{plan['scratch']}/parts/{part:08}.notes", "rb") as file:
            for line in file:
                words = line.split()
                if len(words) == 13 and words[1] == b"frames":
                    for name in REPORT:
                        counts[words[0].decode()][name] += int(words[words.index(name.encode()) + 1])
    return counts


def write_notes(plan, parts, counts, notes):
    """What was told of names, the reports added up, and the lines on what was left out, merged by id. Answers whether a record was
    refused."""
    notes.write(plan["names_notes"])
    some = plan["names_refused"]
    for library in plan["paths"]:
        frames, refused = write_refused(plan, library, notes)
        some = some or refused > 0
        told_of = " ".join(f"{name} {counts[library][name]}" for name in REPORT)
        notes.write(f"{library} frames {frames} {told_of} refused {refused}\n".encode())
    left = [left_lines(f"{plan['scratch']}/parts/{part:08}.notes") for part in parts]
    for _, line in heapq.merge(*left, key=lambda pair: pair[0]):
        notes.write(line)
    return some


def left_lines(path):
    with open(path, "rb") as file:
        for line in file:
            if line.startswith(b"left "):
                yield line[5:].rpartition(b" ")[0], line


def write_refused(plan, library, notes):
    """The lines on the refused records of a library, with the numbers that they have in the whole delivery."""
    frames = refused = 0
    names = sorted(name for name in os.listdir(f"{plan['scratch']}/refused") if re.fullmatch(re.escape(library) + r"-\d{8}", name))
    for name in names:
        with open(f"{plan['scratch']}/refused/{name}", "rb") as file:
            count, some = map(int, file.readline().split())
            for line in file:
                number, rest = line.split(b" ", 1)
                notes.write(f"{library} refused {frames + int(number)} ".encode() + rest)
        frames += count
        refused += some
    return frames, refused
