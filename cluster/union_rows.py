"""Rows of numbers: what union-keys tells as a table, groups of rows that share a key, and the files by which shares are exchanged.

A node is a record, by its place in all deliveries: the number of its stretch in the upper 32 bits, and its place there in the lower. So nodes
are in the order of the libraries and of their deliveries. All is done on whole arrays, and a step has one share of the rows in memory.
"""

import os

import numpy as np
from scipy.sparse import coo_matrix
from scipy.sparse.csgraph import connected_components

from union_ends import FAULT, Ended, advice

# The rows of union-keys --table.
RECORD = np.dtype([("library", "S16"), ("id", "<i8", 2), ("at", "<i8"), ("size", "<i8"), ("loads", "<i8")])
KEY = np.dtype([("key", "<i8"), ("owner", "<i8"), ("mark", "<i8")])
# The rows that shares exchange.
ID = np.dtype([("high", "<i8"), ("low", "<i8"), ("row", "<u4")])
POST = np.dtype([("key", "<i8"), ("row", "<u4")])
NEW = np.dtype([("key", "<i8"), ("node", "<i8"), ("mark", "u1")])
PAIR = np.dtype([("node", "<i8"), ("least", "<i8")])
LABEL = np.dtype([("row", "<u4"), ("label", "<i8")])
DEAD = np.dtype([("row", "<u4")])
MEMBER = np.dtype([("label", "<i8"), ("node", "<i8"), ("at", "<i8"), ("size", "<i4")])
PLACE = np.dtype([("at", "<i8"), ("size", "<i4")])
BOTH_MARKS = 3
MIX = -7046029254386353131


# ---- the table of union-keys


def table_of(data):
    """The rows of records and of keys of a table."""
    if len(data) < 8:
        raise Ended(FAULT, f"union-keys wrote no table; {advice(FAULT)}")
    count = int.from_bytes(data[:8], "little")
    bound = 8 + count * RECORD.itemsize
    return np.frombuffer(data[8:bound], RECORD), np.frombuffer(data[bound:], KEY)


def once(owners, keys, marks):
    """Each key of an owner once, with its marks together: owners, keys and marks in order."""
    order = np.lexsort((keys, owners))
    owners, keys, marks = owners[order], keys[order], marks[order]
    if not len(order):
        return owners, keys, marks
    firsts = np.flatnonzero(np.append(True, (keys[1:] != keys[:-1]) | (owners[1:] != owners[:-1])))
    return owners[firsts], keys[firsts], np.bitwise_or.reduceat(marks, firsts)


# ---- groups that share a key


def joins_of(keys, nodes, marks):
    """The pairs that join all nodes of a key to the first of them, where one seeks it and one is posted under it."""
    order = np.argsort(keys, kind="stable")
    keys, nodes, marks = keys[order], nodes[order], marks[order]
    if not len(order):
        return nodes, nodes
    starts = np.flatnonzero(np.append(True, keys[1:] != keys[:-1]))
    counts = np.diff(np.append(starts, len(keys)))
    meets = np.repeat(np.bitwise_or.reduceat(marks, starts) == BOTH_MARKS, counts)
    firsts = np.repeat(nodes[starts], counts)
    joined = meets & (nodes != firsts)
    return nodes[joined], firsts[joined]


def stars_of(ends, others):
    """Each node of the pairs beside the least node of its component, but for these."""
    if not len(ends):
        return ends, others
    nodes, places = np.unique(np.concatenate([ends, others]), return_inverse=True)
    graph = coo_matrix((np.ones(len(ends), bool), (places[: len(ends)], places[len(ends) :])), shape=(len(nodes), len(nodes)))
    count, labels = connected_components(graph, directed=False)
    least = np.empty(count, nodes.dtype)
    least[labels[::-1]] = nodes[::-1]
    least = least[labels]
    away = nodes != least
    return nodes[away], least[away]


def are_stars(ends, others, nodes, least):
    """Whether the pairs are those of stars, and no others."""
    upper, lower = np.maximum(ends, others), np.minimum(ends, others)
    order = np.lexsort((lower, upper))
    upper, lower = upper[order], lower[order]
    if len(upper):
        firsts = np.append(True, (upper[1:] != upper[:-1]) | (lower[1:] != lower[:-1]))
        upper, lower = upper[firsts], lower[firsts]
    return np.array_equal(upper, nodes) and np.array_equal(lower, least)


def are_among(pairs, old):
    """Which of the pairs are among others, of which each node has one and which are in their order."""
    if not len(old):
        return np.zeros(len(pairs), bool)
    at = np.minimum(np.searchsorted(old["node"], pairs["node"]), len(old) - 1)
    return (old["node"][at] == pairs["node"]) & (old["least"][at] == pairs["least"])


def share_of(nodes, shares):
    return ((nodes * MIX) >> 32 & 0x7FFFFFFF) % shares


def pairs_to_both(nodes, least, shares):
    """The pairs, each for the share of either end, and the shares."""
    rows = np.empty(2 * len(nodes), PAIR)
    rows["node"] = np.concatenate([nodes, nodes])
    rows["least"] = np.concatenate([least, least])
    to = np.concatenate([share_of(nodes, shares), share_of(least, shares)])
    apart = np.append(np.ones(len(nodes), bool), to[: len(nodes)] != to[len(nodes) :])
    return rows[apart], to[apart]


# ---- files


def save(path, *arrays):
    """Writes the arrays one after the other. A step that is done twice, or on two machines at once, writes the same file twice."""
    own = f"{path}.{os.uname().nodename}.{os.getpid()}"
    with open(own, "wb") as file:
        for array in arrays:
            file.write(np.ascontiguousarray(array).view(np.uint8).data)
    os.replace(own, path)


def load(path, dtype):
    return np.fromfile(path, dtype)


def put(plan, name, number, rows, to, shares):
    """Writes the rows that a step has for each share, and answers how many bytes they have."""
    os.makedirs(f"{plan['scratch']}/{name}", exist_ok=True)
    order = np.argsort(to, kind="stable")
    bounds = np.zeros(shares + 1, "<i8")
    np.cumsum(np.bincount(to, minlength=shares), out=bounds[1:])
    save(f"{plan['scratch']}/{name}/{number}", bounds, rows[order])
    return rows.nbytes


def get(plan, name, count, share, shares, dtype):
    """The rows that some steps have for a share, and for each the number of its step."""
    found, sizes = [], np.zeros(count, "<i8")
    for number in range(count):
        with open(f"{plan['scratch']}/{name}/{number}", "rb", buffering=0) as file:
            first, last = np.frombuffer(os.pread(file.fileno(), 16, 8 * share), "<i8")
            sizes[number] = last - first
            if last > first:
                rows = np.empty(last - first, dtype)
                file.seek(8 * (shares + 1) + first * dtype.itemsize)
                read_into(file, rows.view(np.uint8).data)
                found.append(rows)
    return np.concatenate(found) if found else np.empty(0, dtype), np.repeat(np.arange(count), sizes)


def read_into(file, buffer):
    done = 0
    while done < len(buffer):
        more = file.readinto(buffer[done:])
        if not more:
            raise OSError(5, "a file of the scratch folder ends early", file.name)
        done += more
