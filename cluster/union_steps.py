"""The steps of a run, each for one stretch of a delivery, one share of the rows, or one part. Workers take them, in the order of docs/CLUSTER.md.

A step reads deliveries and files of the scratch folder, writes a file of its own, and answers a few numbers; so it may be done twice.
"""

import itertools
import os
import re
import tempfile
import time

import numpy as np

import union_rows as rows_of
from union_ends import FAULT, Delivery, Ended, advice, changed, run_program
from union_merge import index_of
from union_rows import DEAD, ID, LABEL, MEMBER, NEW, PAIR, PLACE, POST, get, load, once, put, save, share_of, stars_of, table_of

TERMINATOR = b"\x1d"
BREAKS = b"\r\n"
PIECE = 1 << 16
# How many bytes of runs are copied at once.
COPIED = 1 << 23


# ---- deliveries


def piece_from(file, at):
    """Where the first piece begins at or after a place: a piece begins behind each record terminator."""
    if at == 0:
        return 0
    file.seek(at - 1)
    while data := file.read(PIECE):
        cut = data.find(TERMINATOR)
        if cut >= 0:
            return file.tell() - len(data) + cut + 1
    return file.tell()


def frames_in(data):
    """How many frames the pieces have: CR and LF at the head of a piece are no part of its frame."""
    last = data.rfind(TERMINATOR) + 1
    return np.count_nonzero(np.frombuffer(data, np.uint8) == TERMINATOR[0]) + (data[last:].lstrip(BREAKS) != b"")


def copy_runs(file, at, size, to):
    """Copies the records at these places, which ascend: neighbours at once."""
    if not len(at):
        return
    heads = np.flatnonzero(np.append(True, at[1:] != at[:-1] + size[:-1]))
    starts = at[heads]
    sizes = np.add.reduceat(size.astype("<i8"), heads)
    turns = np.cumsum(sizes) // COPIED
    bounds = np.append(np.flatnonzero(np.append(True, turns[1:] != turns[:-1])), len(starts))
    for first, last in itertools.pairwise(bounds.tolist()):
        to.write(file.read_runs(starts[first:last].tolist(), sizes[first:last].tolist()))


def write_files(plan, places, of, scratch):
    """A file for each library with the records at these places, in order, and the words that name the files. `of` has their stretches."""
    words = []
    library_of = np.array([number for number, _, _ in plan["stretches"]], "<i8")[of]
    for number, (library, path) in enumerate(plan["paths"].items()):
        first, last = np.searchsorted(library_of, [number, number + 1])
        with open(f"{scratch}/{library}.mrc", "wb") as copy, Delivery(library, path) as file:
            copy_runs(file, places["at"][first:last], places["size"][first:last], copy)
        words.append(f"{library}={scratch}/{library}.mrc")
    return words


# ---- the program union-keys


def run_keys(plan, words, scratch):
    """The table that union-keys writes, and what it tells. It takes what memory a worker has."""
    with open(f"{scratch}/table", "wb") as out, open(f"{scratch}/notes", "wb") as notes:
        status = run_program([plan["keys"], "--table", *words], out, notes, plan["memory"])
    with open(f"{scratch}/notes", "rb") as notes:
        told = notes.read()
    if status not in (0, 1):
        says = told.decode(errors="replace").strip().rpartition("\n")[2]
        raise Ended(status, f"union-keys ended with {status} on a worker ({says or 'it said nothing'}); {advice(status)}")
    with open(f"{scratch}/table", "rb") as table:
        return (*table_of(table.read()), told)


# ---- steps of stretches


def read(plan, number):
    """Reads a stretch, block by block: the rows of its records, their ids by shares, and their keys, each once."""
    stand_still(plan["victim"])
    of, start, end = plan["stretches"][number]
    library, path = list(plan["paths"].items())[of]
    found, keys, refused, frames, count = [], [], [], 0, 0
    with tempfile.TemporaryDirectory(dir=plan["scratch"]) as scratch, Delivery(library, path) as file:
        bounds = [*range(start, end, plan["block"]), end]
        first = piece_from(file, start)
        for bound in bounds[1:]:
            last = piece_from(file, bound) if bound < plan["stamps"][library][0] else bound
            if last > first:
                records, owners, names, marks, lines, some = read_block(plan, library, file.read_all(first, last - first), scratch)
                records["at"] += first
                refused += [(frames + int(frame), rest) for frame, rest in lines]
                keys.append((owners + count, names, marks))
                found.append(records)
                frames += some
                count += len(records)
            first = max(first, last)
    records = np.concatenate(found) if found else np.empty(0, rows_of.RECORD)
    keep_rows(plan, number, records, keys)
    save(f"{plan['scratch']}/refused/{library}-{number:08}", np.frombuffer(refused_text(frames, refused), np.uint8))
    ids = np.empty(count, ID)
    ids["high"] = records["id"][:, 0] & plan["id_mask"]
    ids["low"] = 0 if plan["id_mask"] >= 0 else records["id"][:, 1]
    ids["row"] = np.arange(count) << 1 | records["loads"]
    return count, put(plan, "ids", number, ids, ids["high"] % plan["shares"], plan["shares"])


def read_block(plan, library, data, scratch):
    """The records of some pieces and their keys, the lines on refused frames, and how many frames there are."""
    with open(f"{scratch}/block", "wb") as block:
        block.write(data)
    frames = int(frames_in(data))
    records, keys, told = run_keys(plan, [f"{library}={scratch}/block"], scratch)
    refused = re.findall(rb"^\S+ refused (\d+) (\S+ \d+)$", told, re.M)
    if len(records) + len(refused) != frames:
        raise Ended(FAULT, f"union-keys told of {len(records) + len(refused)} of {frames} records; {advice(FAULT)}")
    return records.copy(), *once(keys["owner"], keys["key"], keys["mark"]), refused, frames


def refused_text(frames, refused):
    lines = [f"{frames} {len(refused)}\n".encode()]
    lines += [b"%d %s\n" % line for line in refused]
    return b"".join(lines)


def keep_rows(plan, number, records, keys):
    """Keeps what a stretch has, until its keys and places are asked for."""
    places = np.empty(len(records), PLACE)
    places["at"], places["size"] = records["at"], records["size"]
    save(f"{plan['scratch']}/places/{number}", places)
    save(f"{plan['scratch']}/alive/{number}", records["loads"].astype("?"))
    posts = np.empty(sum(len(names) for _, names, _ in keys), POST)
    if keys:
        owners, names, marks = (np.concatenate(column) for column in zip(*keys))
        posts["key"], posts["row"] = names, owners << 2 | marks
    save(f"{plan['scratch']}/held/{number}", posts)


def stand_still(victim):
    """The first worker that comes here waits to be killed, where a test wants that."""
    try:
        with open(victim, "x", encoding="ascii") as file:
            file.write(str(os.getpid()))
    except OSError:
        return
    time.sleep(60)


def send_keys(plan, number):
    """Sends the keys of a stretch to their shares, but for those of records that a later one of their id replaces or withdraws."""
    path = f"{plan['scratch']}/alive/{number}"
    alive = load(path, "?")
    if not plan["keep"]:
        dead, _ = get(plan, "dead", plan["shares"], number, len(plan["stretches"]), DEAD)
        alive[dead["row"]] = False
        save(path, alive)
    posts = load(f"{plan['scratch']}/held/{number}", POST)
    posts = posts[alive[posts["row"] >> 2]]
    save(f"{plan['scratch']}/labels/{number}", np.full(len(alive), -1, "<i8"))
    return put(plan, "keys", number, posts, posts["key"] % plan["shares"], plan["shares"])


def relabel(plan, number, turn):
    """Puts the joined records of a stretch into their groups, and sends those of groups that have changed to the groups' shares."""
    path = f"{plan['scratch']}/labels/{number}"
    labels = load(path, "<i8")
    told, _ = get(plan, f"labels{turn}", plan["shares"], number, len(plan["stretches"]), LABEL)
    labels[told["row"]] = told["label"]
    save(path, labels)
    alive, places = load(f"{plan['scratch']}/alive/{number}", "?"), load(f"{plan['scratch']}/places/{number}", PLACE)
    fresh = np.zeros(len(labels), "?")
    fresh[told["row"]] = True
    fresh = np.flatnonzero(fresh if plan["keep"] else fresh & alive)
    members = np.empty(len(fresh), MEMBER)
    members["label"], members["node"] = labels[fresh], number << 32 | fresh
    members["at"], members["size"] = places["at"][fresh], places["size"][fresh]
    return put(plan, f"members{turn}", number, members, share_of(members["label"], plan["shares"]), plan["shares"])


def bins_of(plan, number):
    """The bin of each record of a stretch: that of its group, or, where it is alone, that of its neighbourhood. And the records' places."""
    labels, places = load(f"{plan['scratch']}/labels/{number}", "<i8"), load(f"{plan['scratch']}/places/{number}", PLACE)
    near = number << 32 | places["at"] // plan["near"]
    return share_of(np.where(labels < 0, near, labels), plan["bins"]), places


def weigh(plan, number):
    """How many bytes of a stretch each bin has."""
    bins, places = bins_of(plan, number)
    return np.bincount(bins, weights=places["size"], minlength=plan["bins"])


def send_places(plan, number):
    """Sends the places of a stretch's records to their parts."""
    bins, places = bins_of(plan, number)
    part_of = load(f"{plan['scratch']}/part_of", "<i8")
    return put(plan, "parts_of", number, places, part_of[bins], plan["parts"])


# ---- steps of shares


def last_of_ids(plan, share):
    """Tells of each id's rows but the last that they are dead, and joins all of them. Answers how many ids have a last row that loads. Two
    ids that hash alike are taken for one here; `run` sees it."""
    ids, of = get(plan, "ids", len(plan["stretches"]), share, plan["shares"], ID)
    nodes = of << 32 | (ids["row"] >> 1)
    order = np.lexsort((nodes, ids["low"], ids["high"]))
    ids, nodes = ids[order], nodes[order]
    again = (ids["high"][1:] == ids["high"][:-1]) & (ids["low"][1:] == ids["low"][:-1])
    earlier, later = nodes[:-1][again], nodes[1:][again]
    dead = np.empty(len(earlier), DEAD)
    dead["row"] = earlier & 0xFFFFFFFF
    put(plan, "dead", share, dead, earlier >> 32, len(plan["stretches"]))
    send_joins(plan, "same", share, later, earlier)
    last = np.append(~again, True)[: len(ids)]
    return int(np.count_nonzero(ids["row"][last] & 1))


def send_joins(plan, name, share, ends, others):
    """Sends stars of what the pairs join, and answers how many there are."""
    nodes, least = stars_of(ends, others)
    put(plan, name, share, *rows_of.pairs_to_both(nodes, least, plan["shares"]), plan["shares"])
    return len(nodes)


def join(plan, share, turn):
    """Joins the groups that a key of this share puts together: the records', first, and then those of new keys of groups with these."""
    path = f"{plan['scratch']}/posts/{share}."
    if turn == 1:
        posts, of = get(plan, "keys", len(plan["stretches"]), share, plan["shares"], POST)
        posts_now = np.empty(len(posts), NEW)
        posts_now["key"], posts_now["node"] = posts["key"], of << 32 | (posts["row"] >> 2)
        posts_now["mark"] = posts["row"] & 3
        meeting = posts_now
    else:
        posts_now, _ = get(plan, f"new{turn - 1}", plan["shares"], share, plan["shares"], NEW)
        meeting = [posts_now]
        for earlier in range(1, turn) if len(posts_now) else ():
            posts = load(f"{path}{earlier}", NEW)
            meeting.append(posts[np.isin(posts["key"], posts_now["key"])])
        meeting = np.concatenate(meeting)
    save(f"{path}{turn}", posts_now)
    joins = rows_of.joins_of(meeting["key"], meeting["node"], meeting["mark"])
    return send_joins(plan, f"joins{turn}", share, *joins)


def star(plan, share, turn, step):
    """Stars of the pairs that have an end in this share, sent to both ends. Answers how many pairs there are if these were no stars, else 0."""
    shares = plan["shares"]
    if step == 0:
        pairs = [get(plan, f"joins{turn}", shares, share, shares, PAIR)[0]]
        if turn == 1:
            pairs.append(get(plan, "same", shares, share, shares, PAIR)[0])
        else:
            pairs.append(load(f"{plan['scratch']}/stars/{share}.{turn - 1}", PAIR))
        pairs = np.concatenate(pairs)
    else:
        pairs, _ = get(plan, f"stars{turn}.{step - 1}", shares, share, shares, PAIR)
    nodes, least = stars_of(pairs["node"], pairs["least"])
    put(plan, f"stars{turn}.{step}", share, *rows_of.pairs_to_both(nodes, least, shares), shares)
    return 0 if rows_of.are_stars(pairs["node"], pairs["least"], nodes, least) else len(pairs)


def settle(plan, share, turn, step):
    """Tells the records of the groups of this share that have changed in which group they are. Answers how many groups these are."""
    shares, path = plan["shares"], f"{plan['scratch']}/stars/{share}."
    pairs, _ = get(plan, f"stars{turn}.{step}", shares, share, shares, PAIR)
    pairs = pairs[np.unique(pairs["node"], return_index=True)[1]]
    old = load(f"{path}{turn - 1}", PAIR) if turn > 1 else np.empty(0, PAIR)
    save(f"{path}{turn}", pairs)
    mine = pairs[share_of(pairs["least"], shares) == share]
    fresh = np.unique(mine["least"][~rows_of.are_among(mine, old)])
    mine = mine[np.isin(mine["least"], fresh)]
    nodes, least = np.concatenate([mine["node"], fresh]), np.concatenate([mine["least"], fresh])
    labels = np.empty(len(nodes), LABEL)
    labels["row"], labels["label"] = nodes & 0xFFFFFFFF, least
    put(plan, f"labels{turn}", share, labels, nodes >> 32, len(plan["stretches"]))
    return len(fresh)


def group_keys(plan, share, turn):
    """Sends the keys of what the changed groups of this share resolve to, but for those that their records had."""
    members, _ = get(plan, f"members{turn}", len(plan["stretches"]), share, plan["shares"], MEMBER)
    members = members[np.lexsort((members["node"], members["label"]))]
    found = [np.empty(0, NEW)]
    heads = np.flatnonzero(np.append(True, members["label"][1:] != members["label"][:-1]))[: len(members)]
    calls = np.cumsum(members["size"], dtype="<i8")[heads] // plan["block"] if len(heads) else heads
    bounds = np.append(heads[np.flatnonzero(np.append(True, calls[1:] != calls[:-1]))[: len(heads)]], len(members))
    for first, last in itertools.pairwise(bounds.tolist()):
        found.append(new_keys(plan, members[first:last]))
    new = np.concatenate(found)
    return put(plan, f"new{turn}", share, new, new["key"] % plan["shares"], plan["shares"])


def new_keys(plan, members):
    """The keys of some groups, by one call of union-keys: each record is a group by itself there, and then come the groups."""
    with tempfile.TemporaryDirectory(dir=plan["scratch"]) as scratch:
        order = np.argsort(members["node"], kind="stable")
        numbers = np.empty(len(members), "<i8")
        numbers[order] = np.arange(1, len(members) + 1)
        words = write_files(plan, members[order], members["node"][order] >> 32, scratch)
        ends = np.flatnonzero(np.append(members["label"][1:] != members["label"][:-1], True)) + 1
        alone = np.stack([numbers, np.zeros_like(numbers)], axis=1).ravel()
        save(f"{scratch}/groups", alone, np.insert(numbers, ends, 0))
        records, keys, _ = run_keys(plan, [f"--groups={scratch}/groups", *words], scratch)
    if len(records) != len(members):
        raise changed(list(plan["paths"])[0])
    labels = np.concatenate([members["label"], members["label"][ends - 1]])
    owners = labels[keys["owner"]]
    late = keys["owner"] >= len(members)
    order = np.lexsort((late, keys["mark"], keys["key"], owners))
    owners, keys, late = owners[order], keys[order], late[order]
    again = (owners[1:] == owners[:-1]) & (keys["key"][1:] == keys["key"][:-1]) & (keys["mark"][1:] == keys["mark"][:-1])
    new = late & np.append(True, ~again)[: len(late)]
    owners, names, marks = once(owners[new], keys["key"][new], keys["mark"][new])
    found = np.empty(len(owners), NEW)
    found["key"], found["node"], found["mark"] = names, owners, marks
    return found


# ---- steps of parts


def export(plan, part):
    """Runs union export on a part, and keeps its export with an index, and its notes. Answers how it ended."""
    places, of = get(plan, "parts_of", len(plan["stretches"]), part, plan["parts"], PLACE)
    size = int(places["size"].sum(dtype="<i8"))
    with tempfile.TemporaryDirectory(dir=plan["scratch"]) as scratch:
        words = write_files(plan, places, of, scratch)
        with open(f"{scratch}/out", "wb") as out, open(f"{scratch}/notes", "wb") as notes:
            command = [plan["union"], "export", "--workers=1", *plan["options"], *words]
            status = run_program(command, out, notes, plan["part_memory"])
        if status not in (0, 1):
            return status, size, f"part {part}: {len(places)} records, {size} bytes; {largest_group(plan, part)}"
        refuse_none(f"{scratch}/notes")
        save(f"{plan['scratch']}/parts/{part:08}.index", index_of(f"{scratch}/out", plan["json"]))
        for name in ("out", "notes"):
            os.replace(f"{scratch}/{name}", f"{plan['scratch']}/parts/{part:08}.{name}")
    return status, size, ""


def largest_group(plan, part):
    """What is told of the largest group of a part."""
    part_of = load(f"{plan['scratch']}/part_of", "<i8")
    labels, sizes = [], []
    for number in range(len(plan["stretches"])):
        bins, places = bins_of(plan, number)
        own = load(f"{plan['scratch']}/labels/{number}", "<i8")
        own = np.where(own < 0, number << 32 | np.arange(len(own)), own)
        mine = part_of[bins] == part
        labels.append(own[mine])
        sizes.append(places["size"][mine])
    labels, groups = np.unique(np.concatenate(labels), return_inverse=True)
    weights = np.bincount(groups, weights=np.concatenate(sizes))
    node = int(labels[np.argmax(weights)])
    library, path = list(plan["paths"].items())[plan["stretches"][node >> 32][0]]
    at, size = load(f"{plan['scratch']}/places/{node >> 32}", PLACE)[node & 0xFFFFFFFF].tolist()
    with Delivery(library, path) as file:
        frame = file.read_all(at, size)
    base = int(frame[12:17])
    entry = next(frame[i : i + 12] for i in range(24, base - 1, 12) if frame[i : i + 3] == b"001")
    control = frame[base + int(entry[7:12]) :][: int(entry[3:7]) - 1].decode(errors="replace")
    return f"the largest group, of {library}.{control}, has {int(weights.max())} bytes"


def refuse_none(path):
    """All records of a part were accepted when their delivery was read first: if one is refused now, the file is another one."""
    with open(path, "rb") as file:
        for words in map(bytes.split, file):
            if words[1:2] == [b"refused"] and words[0] != b"names":
                raise changed(words[0].decode())
