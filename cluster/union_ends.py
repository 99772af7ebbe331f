"""How a run of union-cluster ends: a status, and one line that says what to do. Nothing here needs Dask.

The statuses are those of `union`, which FORMATS.md lists; FAULT is for what is left. Only 0 and 1 say that all was written. Whatever goes
wrong, here or on a worker, becomes one `Ended`.
"""

import ctypes
import errno
import itertools
import os
import resource
import signal
import subprocess

WORDS, OPEN, READ, WRITE, LENGTH, MEMORY, FAULT = 2, 3, 4, 5, 6, 7, 70
NO_ROOM = (errno.ENOSPC, errno.EDQUOT, errno.EFBIG, errno.EROFS)
LONGEST_LINE = 300
# The option of prctl that a program dies with who started it, and the status of one that the system could not load.
DIES_WITH_PARENT = 1
NO_LOADER = 127


class Ended(Exception):
    """The run ends with this status, and a line that says why."""

    def __init__(self, status, line):
        super().__init__(status, line)
        self.status = status
        self.line = line


def end_of(error, scratch):
    """The end to which an error comes that was raised where nobody foresaw it."""
    if isinstance(error, Ended):
        return error
    kind = type(error).__name__
    if kind == "KilledWorker":
        return Ended(MEMORY, "workers were killed again and again, as happens for lack of memory: fewer --workers or more --parts make each less")
    if isinstance(error, MemoryError) or errno_of(error) == errno.ENOMEM:
        return Ended(MEMORY, "out of memory: fewer --workers or more --parts make each less")
    if errno_of(error) in NO_ROOM or scratch and isinstance(error, OSError) and str(error.filename or "").startswith(scratch):
        return no_scratch(scratch, error)
    if errno_of(error) in (errno.EMFILE, errno.ENFILE):
        return Ended(OPEN, "too many files are open: 'ulimit -n' must allow one for each of the --parts, and 100")
    if isinstance(error, ImportError):
        return Ended(FAULT, f"python3-distributed, python3-numpy and python3-scipy must be installed, on each machine of a cluster ({error})")
    if kind in ("CancelledError", "CommClosedError", "FutureCancelledError", "TimeoutError"):
        return Ended(FAULT, "the scheduler has gone away; run it again once it is back")
    return Ended(FAULT, f"the run failed; --progress tells more ({kind}: {error})")


def errno_of(error):
    return error.errno if isinstance(error, OSError) else None


def no_scratch(scratch, error):
    """The folder is full, is not there, or is not there for a worker."""
    return Ended(WRITE, f"cannot write in the folder {scratch} ({reason(error)}); --scratch names another")


def advice(status):
    """What to do where a program on a worker has ended with a status."""
    if status == MEMORY:
        return "more --memory, fewer --workers, a smaller --block or more --parts give it room"
    if status == WRITE:
        return "the folder of --scratch has no room; name another"
    return "the two programs must be of one version, and see the folder of --scratch"


def reason(error):
    """What the system says of a call that failed."""
    return (error.strerror or str(error)).lower()


def line_of(text):
    """The text as one line that is not too long to be read."""
    text = " ".join(text.split())
    return text if len(text) <= LONGEST_LINE else text[: LONGEST_LINE - 3] + "..."


class Delivery:
    """A library's file, read from its beginning or any other place."""

    def __init__(self, library, path):
        self.library = library
        try:
            self.file = open(path, "rb")
        except OSError as error:
            raise cannot_open(library, path, error) from None

    def __enter__(self):
        return self

    def __exit__(self, *_):
        self.file.close()

    def read(self, size):
        try:
            return self.file.read(size)
        except OSError as error:
            raise Ended(READ, f"read failed in {self.library}: {reason(error)}") from None

    def read_all(self, at, size):
        """So many bytes from a place, all of which were there before."""
        self.file.seek(at)
        data = self.read(size)
        if len(data) < size:
            raise changed(self.library)
        return data

    def read_runs(self, places, sizes):
        """So many bytes from each of some places, all of which were there before."""
        try:
            data = b"".join(map(os.pread, itertools.repeat(self.file.fileno()), sizes, places))
        except OSError as error:
            raise Ended(READ, f"read failed in {self.library}: {reason(error)}") from None
        if len(data) < sum(sizes):
            raise changed(self.library)
        return data

    def seek(self, at):
        self.file.seek(at)

    def tell(self):
        return self.file.tell()


def cannot_open(library, path, error):
    if isinstance(error, IsADirectoryError):
        return Ended(READ, f"read failed in {library}: {path} is a folder")
    if isinstance(error, FileNotFoundError):
        return Ended(OPEN, f"cannot open {library}: there is no file {path}")
    return Ended(OPEN, f"cannot open {library}: {path}: {reason(error)}")


def changed(library):
    return Ended(READ, f"read failed in {library}: the file changed while it was read; deliver it by renaming, and run it again")


def run_program(command, out, notes, memory):
    """Runs a program on two files, within so many bytes of addresses, and answers its status: MEMORY where a signal ended it."""
    try:
        ended = subprocess.run(command, stdin=subprocess.DEVNULL, stdout=out, stderr=notes, preexec_fn=within(memory), check=False).returncode
    except (OSError, subprocess.SubprocessError) as error:
        if errno_of(error) == errno.ENOMEM:
            raise
        raise Ended(FAULT, f"cannot run {command[0]} ({reason(error) if isinstance(error, OSError) else error}); {build_it(command[0])}") from None
    if ended == -signal.SIGXFSZ:
        return WRITE
    if ended < 0 or memory and ended == NO_LOADER:
        return MEMORY
    return ended if ended <= MEMORY else FAULT


def build_it(path):
    option = "--keys" if "keys" in os.path.basename(path) else "--union"
    return f"packaging/deb/programs builds it, or {option} names another"


LIBC = ctypes.CDLL(None)


def within(memory):
    """Lets a program have so many bytes of addresses, and no longer life than who started it."""

    def begin():
        LIBC.prctl(DIES_WITH_PARENT, signal.SIGKILL)
        if memory:
            resource.setrlimit(resource.RLIMIT_AS, (memory, memory))

    return begin


def stamps_of(paths):
    """The size and the time of each file: a file that keeps both has not changed."""
    stamps = {}
    for library, path in paths.items():
        try:
            found = os.stat(path)
        except OSError as error:
            raise cannot_open(library, path, error) from None
        stamps[library] = (found.st_size, found.st_mtime_ns)
    return stamps


class Output:
    """One of the two outputs. The file of its number stands aside, so that nobody else writes there."""

    def __init__(self, number, name):
        self.name = name
        self.file = os.fdopen(os.dup(number), "wb")

    def write(self, data):
        try:
            self.file.write(data)
        except OSError as error:
            raise self.fault(error) from None

    def close(self):
        try:
            self.file.close()
        except OSError as error:
            raise self.fault(error) from None

    def fault(self, error):
        return Ended(WRITE, f"{self.name} could not be written ({reason(error)}): do not use what is there")
