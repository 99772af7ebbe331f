"""The driver of a catalogue in parts: it reads the words, looks at the files, starts the engine and ends the run.

Whatever can be said of words, files and programs is said before Dask is imported. However a run ends, its scratch folder and the workers
that it started are gone, and standard error has the notes of a whole catalogue, or one line. docs/CLUSTER.md has the statuses.
"""

import argparse
import difflib
import importlib
import logging
import multiprocessing
import os
import re
import resource
import shutil
import signal
import stat
import subprocess
import sys
import tempfile
import threading
import traceback
import warnings

from union_ends import FAULT, LENGTH, OPEN, READ, WORDS, WRITE, Delivery, Ended, Output
from union_ends import advice, build_it, cannot_open, end_of, line_of, no_scratch, run_program, stamps_of

PIECE = 1 << 20
MOST_LIBRARIES = 64
LONGEST_FILE = 1 << 40
# The largest part by default, and how many stretches deliveries are read in, at most some more.
PART = 1 << 27
MOST_STRETCHES = 512
SIGNALS = (signal.SIGINT, signal.SIGTERM, signal.SIGHUP)
# How many seconds the engine has to end.
CLOSE = 10


class Interrupted(BaseException):
    """A signal that ends the run."""

    def __init__(self, number):
        super().__init__(number)
        self.number = number


# ---- the words


class Words(argparse.ArgumentParser):
    def error(self, message):
        wrong = re.search(r"unrecognized arguments: (--[a-z-]+)", message)
        known = [name for name in self._option_string_actions if name.startswith("--")]
        near = difflib.get_close_matches(wrong[1], known, 1) if wrong else []
        raise Ended(WORDS, f"{message}{f' (is it {near[0]}?)' if near else ''}; see union-cluster --help")


def number(least, most):
    """A number among the words, in digits."""

    def read(text):
        if not re.fullmatch("[0-9]{1,9}", text) or not least <= int(text) <= most:
            raise argparse.ArgumentTypeError(f"'{text}' is no number from {least} to {most}")
        return int(text)

    return read


def program(name, crate):
    """The program's path: beside this file, where a package has put both, or else where the repository builds it."""
    here = os.path.dirname(os.path.realpath(__file__))
    beside = os.path.join(here, name)
    return beside if os.path.exists(beside) else os.path.normpath(f"{here}/../crates/{crate}/out/{crate}")


def words_of(arguments):
    parser = Words(
        prog="union-cluster",
        description="union export on a cluster of workers: see docs/CLUSTER.md",
        epilog="Use the output only where the status is 0 or 1: all was written, and with 1 some records were refused.",
        add_help=False,
        allow_abbrev=False,
    )
    parser.add_argument("-h", "--help", action="store_true", help="show this text")
    parser.add_argument("--version", action="store_true", help="show the version")
    parser.add_argument("--scheduler", metavar="ADDRESS", help="the address of a Dask scheduler; without it, workers are started on this machine")
    parser.add_argument("--workers", metavar="N", type=number(1, 1024), default=os.cpu_count(), help="how many workers are started on this machine")
    parser.add_argument("--memory", metavar="MB", type=number(1, 1 << 24), default=0, help="how many megabytes a program of a worker may have")
    parser.add_argument("--parts", metavar="N", type=number(1, 1000000), default=0, help="in how many parts the catalogue is made")
    parser.add_argument("--block", metavar="MB", type=number(1, 4096), default=16, help="how many megabytes of a delivery are read at once")
    parser.add_argument("--block-bytes", type=int, default=0, help=argparse.SUPPRESS)
    parser.add_argument("--id-bits", type=number(0, 63), default=0, help=argparse.SUPPRESS)
    parser.add_argument("--part-memory", type=int, default=0, help=argparse.SUPPRESS)
    parser.add_argument("--victim", default="", help=argparse.SUPPRESS)
    parser.add_argument("--join", type=int, default=60, help=argparse.SUPPRESS)
    parser.add_argument("--scratch", metavar="FOLDER", help="a folder that all workers see, for files that are gone at the end")
    parser.add_argument("--prefer", metavar="LIB,..", help="as of union export")
    parser.add_argument("--names", metavar="PATH", help="as of union export")
    parser.add_argument("--json", action="store_true", help="as of union export")
    parser.add_argument("--union", metavar="PATH", default=program("union", "union_main"), help="the program union")
    parser.add_argument("--keys", metavar="PATH", default=program("union-keys", "union_keys_main"), help="the program union-keys")
    parser.add_argument("--progress", action="store_true", help="tell the progress on standard error")
    parser.add_argument("libraries", nargs="*", metavar="LIB=PATH")
    words = parser.parse_args(arguments)
    if words.help:
        raise Asked(parser.format_help())
    return words


class Asked(Exception):
    """A text for standard output is all that the words ask for."""


def library_paths(words):
    """The files of the libraries, by their codes in the order of the words."""
    paths = {}
    for word in words.libraries:
        library, equals, path = word.partition("=")
        if not equals:
            raise Ended(WORDS, f"'{word}' must be LIB=PATH, a library's code and its file; see union-cluster --help")
        if not re.fullmatch("[A-Z0-9]{1,16}", library):
            raise Ended(WORDS, f"'{word}': a library's code is 1 to 16 of A-Z and 0-9; see union-cluster --help")
        if not path:
            raise Ended(WORDS, f"'{word}': a path must follow the '='; see union-cluster --help")
        if library in paths:
            raise Ended(WORDS, f"'{word}': the library {library} is named twice; see union-cluster --help")
        paths[library] = path
    if not paths:
        raise Ended(WORDS, "a word LIB=PATH is missing, a library's code and its file; see union-cluster --help")
    if len(paths) > MOST_LIBRARIES:
        raise Ended(WORDS, f"there are more than {MOST_LIBRARIES} libraries; see union-cluster --help")
    return paths


# ---- files and programs


def scratch_folder(words):
    wanted = words.scratch or tempfile.gettempdir()
    try:
        return tempfile.mkdtemp(prefix="union-cluster-", dir=os.path.abspath(wanted))
    except OSError as error:
        raise no_scratch(wanted, error) from None


def leads_to_own(path):
    """Whether a path leads through /dev or /proc, where each process sees files of its own."""
    for _ in range(40):
        if path.startswith(("/dev/", "/proc/")):
            return True
        if not os.path.islink(path):
            return False
        path = os.path.normpath(os.path.join(os.path.dirname(path), os.readlink(path)))
    return False


def readable(library, path, scratch):
    """The path of a file that workers can read again and again: that of the delivery, or that of a copy where it is a pipe, a device or a
    file of this process alone."""
    path = os.path.abspath(path)
    try:
        mode = os.stat(path).st_mode
    except OSError as error:
        raise cannot_open(library, path, error) from None
    if stat.S_ISDIR(mode):
        raise Ended(READ, f"read failed in {library}: {path} is a folder")
    if stat.S_ISREG(mode) and not leads_to_own(path):
        with Delivery(library, path) as file:
            file.read(1)
        return path
    copy = f"{scratch}/{library}.delivery"
    with Delivery(library, path) as file:
        try:
            with open(copy, "wb") as to:
                while data := file.read(PIECE):
                    to.write(data)
        except OSError as error:
            raise no_scratch(scratch, error) from None
    return copy


def refuse_missing(*programs):
    for path in programs:
        if not os.access(path, os.X_OK) or os.path.isdir(path):
            raise Ended(FAULT, f"there is no program {path}; {build_it(path)}")


def allow_open_files(parts):
    """The merge has the export and the notes of every part open."""
    soft, hard = resource.getrlimit(resource.RLIMIT_NOFILE)
    resource.setrlimit(resource.RLIMIT_NOFILE, (hard, hard))
    if hard != resource.RLIM_INFINITY and parts + 100 > hard:
        raise Ended(OPEN, f"too many files would be open for {parts} parts: 'ulimit -n' allows {hard}; fewer --parts, or a higher limit")


def rehearse(words, options, paths, scratch):
    """Runs union export on empty files, with the options of the run. Answers what is told of names, and whether one was refused."""
    empty = f"{scratch}/empty"
    with open(empty, "wb"), open(f"{scratch}/told", "wb") as notes:
        status = run_program([words.union, "export", *options, *(f"{library}={empty}" for library in paths)], subprocess.DEVNULL, notes, 0)
    with open(f"{scratch}/told", "rb") as notes:
        lines = notes.readlines()
    if status not in (0, 1):
        says = lines[0].decode(errors="replace").strip() if lines else "it said nothing"
        raise Ended(status, f"union export ended with {status} ({says}); {advice(status)}")
    return b"".join(line for line in lines if line.startswith(b"names ")), status == 1


def options_of(words, scratch):
    """The options of union export, in the order in which it takes them."""
    options = []
    if words.prefer is not None:
        codes = words.prefer.split(",")
        if len(set(codes)) != len(codes) or len(codes) > MOST_LIBRARIES or not all(re.fullmatch("[A-Z0-9]{1,16}", code) for code in codes):
            raise Ended(WORDS, f"'--prefer={words.prefer}': 1 to 64 different codes with one comma between two, each 1 to 16 of A-Z and 0-9")
        options.append(f"--prefer={words.prefer}")
    if words.names is not None:
        options.append(f"--names={readable('names', words.names, scratch)}")
    return [*options, *["--json"] * words.json]


def plan_of(words, scratch):
    """What the workers are told."""
    paths = library_paths(words)
    options = options_of(words, scratch)
    paths = {library: readable(library, path, scratch) for library, path in paths.items()}
    stamps = stamps_of(paths)
    for library, (size, _) in stamps.items():
        if size > LONGEST_FILE:
            raise Ended(LENGTH, f"{library} is too long: a file has at most {LONGEST_FILE:,} bytes")
    size = sum(size for size, _ in stamps.values())
    memory = words.memory << 20
    block = words.block_bytes or min(words.block << 20, part_bytes(memory))
    parts = words.parts or words.workers * (1 + size // (words.workers * part_bytes(memory)))
    allow_open_files(parts)
    refuse_missing(words.union, words.keys)
    names_notes, names_refused = rehearse(words, options, paths, scratch)
    return {
        "paths": paths,
        "stamps": stamps,
        "scratch": scratch,
        "union": os.path.abspath(words.union),
        "keys": os.path.abspath(words.keys),
        "options": options,
        "json": words.json,
        "names_notes": names_notes,
        "names_refused": names_refused,
        "memory": memory,
        "part_memory": (words.part_memory or words.memory) << 20,
        "victim": words.victim,
        "block": block,
        "stretches": stretches_of(stamps, block, size),
        "shares": max(words.workers, size >> 29),
        "parts": parts,
        "near": 1 + size // (parts * 64),
        "id_mask": (1 << words.id_bits) - 1 if words.id_bits else -1,
    }


def part_bytes(memory):
    """How large a part is, of whose bytes union takes six to seven times as much memory."""
    return min(PART, memory // 8) if memory else PART


def stretches_of(stamps, block, size):
    """The stretches of the deliveries, each some blocks long: the number of its library, its beginning and its end."""
    length = block * (1 + size // (block * MOST_STRETCHES))
    found = []
    for number, (whole, _) in enumerate(stamps.values()):
        found += [(number, start, min(start + length, whole)) for start in range(0, max(whole, 1), length)]
    return found


# ---- the engine


class Engine:
    """Dask's scheduler with its workers: those of a cluster, or some that are started on this machine."""

    def __init__(self, words, scratch):
        from distributed import Client, LocalCluster

        self.cluster = self.client = None
        if words.scheduler:
            try:
                self.client = Client(words.scheduler)
                self.client.wait_for_workers(1, timeout=words.join)
            except Exception as error:
                missing = f"no worker has joined within {words.join} s" if self.client else "no scheduler answers"
                raise Ended(FAULT, f"{missing} at {words.scheduler} ({error}); start it, or name another by --scheduler") from None
            here = os.path.dirname(os.path.realpath(__file__))
            for name in ("union_ends.py", "union_merge.py", "union_rows.py", "union_steps.py"):
                self.client.upload_file(os.path.join(here, name))
        else:
            self.cluster = LocalCluster(
                n_workers=words.workers,
                threads_per_worker=1,
                processes=True,
                dashboard_address=":0" if words.progress else None,
                local_directory=scratch,
                silence_logs=logging.CRITICAL,
            )
            self.client = Client(self.cluster)

    def close(self):
        if self.client:
            self.client.close(timeout=CLOSE // 2)
        if self.cluster:
            self.cluster.close(timeout=CLOSE // 2)


def run_on_engine(words, plan, out, notes, started):
    for module in ("dask", "numpy", "scipy.sparse", "distributed"):
        importlib.import_module(module)
    import union_cluster

    started.append(Engine(words, plan["scratch"]))
    if words.progress:
        print(f"union-cluster: the engine's page is {started[0].client.dashboard_link}", file=sys.stderr, flush=True)
    return union_cluster.run(plan, started[0].client, out, notes, words.progress)


def close(started):
    """Ends the engine and what it started, within some seconds."""
    for engine in started:
        closing = threading.Thread(target=quietly, args=(engine.close,), daemon=True)
        closing.start()
        closing.join(CLOSE)
    for child in multiprocessing.active_children():
        child.kill()
        child.join(1)


def quietly(call):
    try:
        call()
    except BaseException:
        pass


# ---- the run


def interrupt(number, _):
    ignore_signals()
    raise Interrupted(number)


def ignore_signals():
    for each in SIGNALS:
        signal.signal(each, signal.SIG_IGN)


def take_outputs(is_progress):
    """The two outputs. What the engine and its workers say goes nowhere, but for those who want the progress."""
    out, notes = Output(1, "standard output"), Output(2, "standard error")
    nowhere = os.open(os.devnull, os.O_WRONLY)
    os.dup2(nowhere, 1)
    if not is_progress:
        os.dup2(nowhere, 2)
    warnings.simplefilter("ignore")
    return out, notes


def version_of(words):
    refuse_missing(words.union)
    return "union-cluster" + subprocess.run([words.union, "--version"], capture_output=True, text=True, check=False).stdout.removeprefix("union")


def run(arguments, out, notes, kept):
    """The status of a run. What has to be closed and removed after it goes into `kept`."""
    words = words_of(arguments)
    if words.version:
        raise Asked(version_of(words))
    library_paths(words)
    kept["scratch"] = scratch_folder(words)
    plan = plan_of(words, kept["scratch"])
    return run_on_engine(words, plan, out, notes, kept["started"])


def end_by(call, out, is_progress, kept):
    """How a call ends: its status, the line that is said of it, if any, and the signal that ended it, if one did."""
    try:
        return call(), None, None
    except Asked as text:
        return end_by(lambda: out.write(str(text).encode()) or out.close() or 0, out, is_progress, kept)
    except Interrupted as interrupted:
        name = signal.Signals(interrupted.number).name
        return FAULT, f"interrupted by {name}: nothing of it is left, and what was written must not be used", interrupted.number
    except BaseException as error:
        if is_progress and not isinstance(error, Ended):
            traceback.print_exc()
        end = end_of(error, kept["scratch"])
        return end.status, end.line, None


def main(arguments):
    """Runs the words, and ends the process: what the engine may have left behind says and does nothing more."""
    status = FAULT
    try:
        if sys.stdout is None or sys.stderr is None:
            os._exit(WRITE)
        for each in SIGNALS:
            signal.signal(each, interrupt)
        is_progress = "--progress" in arguments
        out, notes = take_outputs(is_progress)
        kept = {"scratch": None, "started": []}
        status, line, by = end_by(lambda: run(arguments, out, notes, kept), out, is_progress, kept)
        ignore_signals()
        close(kept["started"])
        if kept["scratch"]:
            shutil.rmtree(kept["scratch"], ignore_errors=True)
        if line:
            quietly(lambda: notes.write(f"union-cluster: {line_of(line)}\n".encode(errors="surrogateescape")))
            quietly(notes.close)
        if by:
            signal.signal(by, signal.SIG_DFL)
            os.kill(os.getpid(), by)
    finally:
        os._exit(status)
