"""The union catalogue of deliveries that no one machine holds, by Dask's distributed scheduler.

The way of the data, the law that makes it right and what it needs stand in docs/CLUSTER.md. The engine takes the steps of union_steps.py to
workers, a step after the other, and starts again what a lost worker had; what one step hands to the next are files of rows in the scratch
folder. The words are read, and the engine is started, by union_driver.py.
"""

import heapq
import os
import shutil
import sys
import time

import numpy as np
from distributed import as_completed

import union_steps
from union_ends import Ended, advice, changed, stamps_of
from union_merge import merge_exports, reports_of, write_notes
from union_rows import save

# How many bins a part has on average: no part is larger than another by more than one of them, unless one group is.
BINS = 64
FOLDERS = ("alive", "held", "labels", "parts", "places", "posts", "refused", "stars")
# How many seconds what a terminal shows stands at least.
SHOWN_FOR = 0.5


class Progress:
    """Tells each step, and on a terminal how much of it is done."""

    def __init__(self, is_told):
        self.is_told = is_told
        self.is_live = is_told and sys.stderr.isatty()
        self.shown = 0.0

    def say(self, text, end="\n"):
        if self.is_told:
            before, after = ("\r", "\x1b[K") if self.is_live else ("", "")
            print(f"{before}union-cluster: {text}{after}", end=end, file=sys.stderr, flush=True)

    def step(self, name, done, of, begun):
        now = time.monotonic()
        if self.is_live and now - self.shown > SHOWN_FOR:
            self.shown = now
            self.say(f"{name}: {done} of {of} ({100 * done // of} %), {done / (now - begun):.1f} a second", end="")


class Run:
    """The steps of one run."""

    def __init__(self, plan, client, progress):
        self.plan = plan
        self.client = client
        self.progress = progress

    def each(self, name, step, numbers, *more):
        """Has workers take a step for each number, in this order; the next goes to the first that is free. What each answers, by number."""
        begun, answers, numbers = time.monotonic(), {}, list(numbers)
        waiting = iter(numbers)
        room = 2 * sum(self.client.nthreads().values()) or 1
        running = as_completed()
        numbers_of = {}

        def start():
            for number in waiting:
                future = self.client.submit(step, self.plan, number, *more, pure=False)
                numbers_of[future] = number
                running.add(future)
                return

        for _ in range(room):
            start()
        for future in running:
            answers[numbers_of.pop(future)] = future.result()
            start()
            self.progress.step(name, len(answers), len(numbers), begun)
        self.progress.say(f"{name}: {len(numbers)} in {time.monotonic() - begun:.1f} s")
        return [answers[number] for number in numbers]

    def drop(self, *names):
        for name in names:
            shutil.rmtree(f"{self.plan['scratch']}/{name}", ignore_errors=True)

    def rows(self):
        """Reads the deliveries, and puts their records into groups of which no two share a key. Answers how many records count."""
        stretches, shares = range(len(self.plan["stretches"])), range(self.plan["shares"])
        read = self.each("read deliveries", union_steps.read, stretches)
        count = sum(records for records, _ in read)
        sent = sum(size for _, size in read)
        current = sum(self.each("find the last of each id", union_steps.last_of_ids, shares))
        sent += sum(self.each("send keys", union_steps.send_keys, stretches))
        self.progress.say(f"{count} records, {current} current; {sent / max(1, count):.1f} bytes a record sent in the first round")
        self.drop("ids", "dead", "held")
        turn, joined = 1, self.groups(1)
        while joined:
            sent = sum(self.each("collect groups", union_steps.relabel, stretches, turn))
            sent += sum(self.each("make keys of groups", union_steps.group_keys, shares, turn))
            self.progress.say(f"round {turn}: {joined} groups; {sent / max(1, count):.1f} bytes a record sent to make their keys")
            self.drop(f"labels{turn}", f"members{turn}")
            turn += 1
            joined = self.groups(turn)
            self.drop(f"new{turn - 1}")
        return current

    def groups(self, turn):
        """Joins the groups that share a key, until each record knows the least of its group. Answers how many groups have changed."""
        shares = range(self.plan["shares"])
        if sum(self.each("meet keys", union_steps.join, shares, turn)) == 0 and turn > 1:
            return 0
        step = 0
        while sum(self.each("join groups", union_steps.star, shares, turn, step)):
            step += 1
        joined = sum(self.each("settle groups", union_steps.settle, shares, turn, step))
        self.drop("keys", "same", f"joins{turn}", *(f"stars{turn}.{number}" for number in range(step + 1)))
        return joined

    def parts(self):
        """Packs the groups into parts, and exports each. Answers the parts, in the order of their numbers."""
        stretches = range(len(self.plan["stretches"]))
        weights = np.sum(self.each("weigh groups", union_steps.weigh, stretches), axis=0)
        part_of, sizes = packed(weights, self.plan["parts"])
        save(f"{self.plan['scratch']}/part_of", part_of)
        self.each("send records", union_steps.send_places, stretches)
        by_size = np.argsort(-sizes, kind="stable").tolist()
        ends = self.each("export parts", union_steps.export, by_size)
        self.progress.say(f"{len(ends)} parts of {int(sizes.min())} to {int(sizes.max())} bytes")
        failed = [end for end in ends if end[0] not in (0, 1)]
        if failed:
            status, _, why = max(failed, key=lambda end: end[1])
            more = f"; {len(failed) - 1} more parts failed" if len(failed) > 1 else ""
            raise Ended(status, f"{why}: union export ended with {status}{more}; {advice(status)}")
        return range(self.plan["parts"])


def packed(weights, parts):
    """The part of each bin, and how many bytes each part has: the next lighter bin goes to the part that has the fewest."""
    part_of, sizes = np.zeros(len(weights), "<i8"), np.zeros(parts, "<i8")
    heap = [(0, part) for part in range(parts)]
    for number in np.argsort(-weights, kind="stable").tolist():
        size, part = heapq.heappop(heap)
        part_of[number] = part
        sizes[part] = size + int(weights[number])
        heapq.heappush(heap, (int(sizes[part]), part))
    return part_of, sizes


def catalogue(plan, client, progress):
    """Makes the exports of the parts. Answers these, what they report, and whether no two ids were taken for one."""
    for name in FOLDERS:
        shutil.rmtree(f"{plan['scratch']}/{name}", ignore_errors=True)
        os.makedirs(f"{plan['scratch']}/{name}")
    run = Run(plan, client, progress)
    current = run.rows()
    parts = run.parts()
    for library, stamp in stamps_of(plan["paths"]).items():
        if stamp != plan["stamps"][library]:
            raise changed(library)
    counts = reports_of(plan, parts)
    return parts, counts, current == sum(count["added"] - count["removed"] for count in counts.values())


def run(plan, client, out, notes, is_told=False):
    """Writes on out and notes what `union export` writes, and answers its status."""
    progress = Progress(is_told)
    plan = {**plan, "keep": False, "bins": BINS * plan["parts"]}
    parts, counts, is_apart = catalogue(plan, client, progress)
    if not is_apart:
        progress.say("two ids hash alike: once more, with the keys of all records")
        parts, counts, _ = catalogue({**plan, "keep": True}, client, progress)
    begun = time.monotonic()
    merge_exports(plan, parts, out)
    out.close()
    progress.say(f"merge exports: {len(parts)} in {time.monotonic() - begun:.1f} s")
    some = write_notes(plan, parts, counts, notes)
    notes.close()
    return 1 if some else 0
