"""Judges what `watch` with several workers or `follow` wrote, where more than one text is right.

    python3 check_watch.py CASE STATUS OUTFILE NOTESFILE

CASE is the folder of a case, STATUS the exit status of the program; OUTFILE and NOTESFILE have
its standard output and standard error. `answers.json` in the folder has the libraries in the order
of the words, the numbers of operations of their turns, the lines of the ask file, and the answers
for each number of turns taken of each library. It is to hold that
- the `turn` lines are numbered from 1, and their order is an interleaving of the
  libraries' turns, each library's in their order and with their numbers of operations; of
  `follow` all turns of a library stand before those of the next;
- then there is one text per line of the ask file, in order: the refused line, or a reply;
- the T of the replies have at least six digits, never fall and are at most the number of
  all turns; the last reply has that number;
- each answer is the one after the first T turns that were written;
- nothing else is written; notes and status are as in the files `notes` and `status`.
Prints `ok`, or the first problem, and ends with 0 or 1.
"""
import json
import os
import sys


def problem(case, status, out, notes):
    with open(os.path.join(case, "answers.json"), encoding="utf-8") as f:
        want = json.load(f)
    with open(os.path.join(case, "args"), encoding="utf-8") as f:
        in_order = f.readline() == "follow\n"
    with open(os.path.join(case, "notes"), "rb") as f:
        if f.read() != notes:
            return "notes differ"
    with open(os.path.join(case, "status")) as f:
        if int(f.read()) != status:
            return "another status"
    if out and not out.endswith(b"\n"):
        return "the last line has no LF"
    lines = out.split(b"\n")[:-1]
    at = 0
    taken = [0] * len(want["libraries"])
    states = [list(taken)]
    total = sum(len(t) for t in want["turns"])
    for turn in range(1, total + 1):
        if at == len(lines):
            return "turn %d is missing" % turn
        for place, library in enumerate(want["libraries"]):
            earlier = all(n == len(t) for n, t in zip(taken[:place], want["turns"]))
            if taken[place] < len(want["turns"][place]) and (earlier or not in_order):
                line = "turn %06d %s %d" % (turn, library, want["turns"][place][taken[place]])
                if lines[at] == line.encode():
                    taken[place] += 1
                    break
        else:
            return "no lawful turn %d: %r" % (turn, lines[at])
        states.append(list(taken))
        at += 1
    seen, asked = 0, 0
    replies = sum(1 for x in want["lines"] if "reply" in x)
    for number, line in enumerate(want["lines"], 1):
        if "refused" in line:
            texts = [b"refused " + line["refused"].encode()]
        else:
            asked += 1
            words = lines[at].split(b" ") if at < len(lines) else []
            if len(words) < 3 or words[0] != b"reply" or not words[1].isdigit():
                return "line %d of the ask file has no reply" % number
            told = int(words[1])
            if words[1] != b"%06d" % told:
                return "line %d: T is written %r" % (number, words[1])
            if told < seen or told > total or (asked == replies and told != total):
                return "line %d: T is %d after %d, with %d turns" % (number, told, seen, total)
            seen = told
            answer = want["answers"][",".join(map(str, states[told]))][asked - 1]
            texts = [b"reply %06d " % told + line["reply"].encode()] + [x.encode() for x in answer]
        if lines[at:at + len(texts)] != texts:
            return "line %d: %r in place of %r" % (number, lines[at:at + len(texts)], texts)
        at += len(texts)
    if at != len(lines):
        return "more text: %r" % lines[at]
    return None


def main():
    if len(sys.argv) != 5:
        print(__doc__)
        return 2
    with open(sys.argv[3], "rb") as f:
        out = f.read()
    with open(sys.argv[4], "rb") as f:
        notes = f.read()
    found = problem(sys.argv[1], int(sys.argv[2]), out, notes)
    print(found or "ok")
    return 1 if found else 0


if __name__ == "__main__":
    sys.exit(main())
