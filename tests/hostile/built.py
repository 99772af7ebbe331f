"""What the tests of the built program share: its path, runs of it with chosen calls turned, and the records that they load."""
import os
import shutil
import struct
import subprocess
import sys
import tempfile

HERE = os.path.dirname(os.path.realpath(__file__))
TOP = os.path.dirname(os.path.dirname(HERE))
PROGRAM = os.environ.get("PROGRAM", os.path.join(TOP, "crates/union_main/out/union_main"))
FAULT_RUNS = os.environ.get("FAULT_RUNS", os.path.join(TOP, "crates/fault_runs/out/fault_runs"))
# A run that takes longer hangs.
SECONDS = 120
# The number of a run that did not end, beside the numbers of signals, which are negative.
HANGS = None
MEMORY = 7

# The end of a subfield's, a field's and a record's bytes.
DELIMITER, FIELD_END, RECORD_END = b"\x1f", b"\x1e", b"\x1d"


def fixed(year):
    """A field 008 of that year."""
    return b"240101s%s    xx                  eng d" % year


def record(fields, leader=(b"n", b"a", b"m", b" ", b"a", b" ", b"a", b" ")):
    """The frame of these fields, pairs of a tag and its bytes with 0x1F written as `$`, in their order."""
    status, kind, level, control, coding, encoding, form, part = leader
    directory, body = b"", b""
    for tag, text in fields:
        stored = text.replace(b"$", DELIMITER) + FIELD_END
        directory += b"%s%04d%05d" % (tag, len(stored), len(body))
        body += stored
    base = 24 + len(directory) + 1
    head = b"%05d" % (base + len(body) + 1) + status + kind + level + control + coding + b"22%05d" % base + encoding + form + part + b"4500"
    return head + directory + FIELD_END + body + RECORD_END


def one(number=b"id", title=b"Cat", status=b"n"):
    """A record of three fields, of 114 bytes where its number has two and its title three."""
    fields = [(b"001", number), (b"008", fixed(b"1999")), (b"245", b"00$a" + title)]
    return record(fields, (status, b"a", b"m", b" ", b"a", b" ", b"a", b" "))


def withdrawal(number):
    return record([(b"001", number)], (b"d", b"a", b"m", b" ", b"a", b" ", b"a", b" "))


# Three records of which the third matches neither of the others, but matches what they make together; and one of a library's own.
BRIDGE = (
    record([(b"001", b"a1"), (b"008", fixed(b"1990")), (b"020", b"  $a0306406152"), (b"100", b"1 $aHill, Ann"), (b"245", b"00$aRed ships")])
    + record([(b"001", b"b1"), (b"008", fixed(b"1991")), (b"020", b"  $a978-0-306-40615-7"), (b"100", b"1 $aHill, Ann"), (b"245", b"00$aBlue ships")])
    + record([(b"001", b"c1"), (b"008", fixed(b"1991")), (b"100", b"1 $aHill, Ann"), (b"245", b"00$aRed ships")])
)
OWN = record(
    [
        (b"001", b"   75425165 "),
        (b"003", b"DLC"),
        (b"005", b"19990521130000.0"),
        (b"008", fixed(b"1975")),
        (b"010", b"  $a   75-425165//r75"),
        (b"020", b"  $a0306406152 (pbk.)"),
        (b"035", b"  $a(OCoLC)ocm00012345 "),
        (b"040", b"  $aDLC$cDLC"),
        (b"100", "1 $aDvořák, Antonín,$d1841-1904.".encode()),
        (b"245", b"14$aThe letters /$cedited."),
        (b"852", b"  $aDLC$bMain$hML410.D99"),
    ],
    (b"c", b"a", b"m", b" ", b"a", b" ", b"a", b" "),
)


class Folder:
    """A folder that is removed at the end, with these files, in which the program is run."""

    def __init__(self, files=()):
        self.path = tempfile.mkdtemp(prefix="union-hostile-")
        self.out, self.notes, self.counts = (os.path.join(self.path, it) for it in (".out", ".notes", ".counts"))
        for name, content in dict(files).items():
            self.put(name, content)

    def put(self, name, content):
        with open(os.path.join(self.path, name), "wb") as file:
            file.write(content)

    def __enter__(self):
        return self

    def __exit__(self, *_):
        shutil.rmtree(self.path, ignore_errors=True)

    def run(self, words, env=None, out=None, notes=None, **how):
        """The status, and what was written on the two outputs where none is given for it."""
        with open(self.out, "w+b") as to, open(self.notes, "w+b") as told:
            child = subprocess.Popen(
                words, cwd=self.path, env=env, stdin=subprocess.DEVNULL, stdout=out or to, stderr=notes or told, **how
            )
            try:
                status = child.wait(timeout=SECONDS)
            except subprocess.TimeoutExpired:
                child.kill()
                child.wait()
                status = HANGS
            to.seek(0)
            told.seek(0)
            return status, to.read(), told.read()


class Fault:
    """The library that turns chosen calls of a program; the C compiler makes it in the folder."""

    # Which of the counts a kind of fault is about.
    KINDS = {"alloc": 0, "open": 1, "read": 2, "write": 3, "short-read": 2, "short-write": 3}

    def __init__(self, folder):
        self.folder = folder
        self.library = os.path.join(folder.path, ".fault.so")
        compiler = os.environ.get("CC", "cc")
        source = os.path.join(HERE, "fault.c")
        subprocess.run([compiler, "-O2", "-shared", "-fPIC", "-o", self.library, source], check=True)

    def run(self, words, kind, first=0, last=0, **how):
        """The status and the two outputs where these calls of the kind are turned, how many calls of the kind were made, and how many
        were turned."""
        with open(self.folder.counts, "wb") as file:
            file.write(bytes(40))
        env = {"LD_PRELOAD": self.library, "FAULT_COUNTS": self.folder.counts, "FAULT_KIND": kind}
        env |= {"FAULT_FROM": str(first), "FAULT_TO": str(last)}
        ended = self.folder.run(words, env, **how)
        with open(self.folder.counts, "rb") as file:
            *made, turned = struct.unpack("5Q", file.read())
        return (*ended, made[self.KINDS[kind]], turned)


def is_there(command):
    return shutil.which(command) is not None


def need_program():
    if not os.access(PROGRAM, os.X_OK):
        sys.exit(f"not a program: {PROGRAM}; ./union builds it")


class Tally:
    """Cases that passed, failed and were skipped."""

    def __init__(self):
        self.passed = self.failed = self.skipped = 0

    def case(self, name, wrong):
        """A case that passed unless something is wrong."""
        if wrong:
            self.failed += 1
            print(f"FAILED {name}: {wrong}", flush=True)
        else:
            self.passed += 1

    def skip(self, name, why):
        self.skipped += 1
        print(f"skipped: {name}: {why}", flush=True)

    def end(self):
        """Prints the counts in the last line, and ends with the status that they ask for."""
        skipped = f", {self.skipped} skipped" if self.skipped else ""
        print(f"{self.passed} passed, {self.failed} failed{skipped}")
        sys.exit(1 if self.failed else 0)
