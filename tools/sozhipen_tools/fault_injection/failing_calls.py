"""Lets the calls of the machine fail or fall short under the program `replay`, and looks at how its runs end.

    tools/run fault_injection.failing_calls                      # each call of each run fails; and runs in short pieces
    tools/run fault_injection.failing_calls --program PROGRAM    # of another build

The runs are those of fault_injection.refused_memory: a bank's entry points and the three desks of examples. Call k of a
run (it opens the rule file, finds a place in it, reads it, reads the script, writes) fails with EIO, for each k. Then
the status is 5, of a write 6, and what was printed is a front of what the whole run prints; after a failed read of the
script it is what the lines print that were taken with their ends, or all of them where the end of the script was told.
(The machine is asked first where the script stands; that may fail and changes nothing.) Where each read and write moves
at most 1, 7 or 4,096 bytes, the run ends as the whole one does; and in these pieces each call of the bank's run fails
in turn too. A small library in C, built by $CC or cc, stands before the C library for this. Prints each run that ended
otherwise, and the number of runs. The status is 0 where every run ended as it is to end, 1 where one did not, and 2
where there is no program or no compiler.
"""
from __future__ import annotations

import os
import struct
import subprocess
import sys
import tempfile
from collections import Counter
from pathlib import Path
from typing import NamedTuple, Optional

from ..places import BUILT
from ..words import Parser
from .refused_memory import Row, rows

PIECES = (1, 7, 4096)

LIBRARY = r"""
#define _GNU_SOURCE
#include <dlfcn.h>
#include <errno.h>
#include <fcntl.h>
#include <stdarg.h>
#include <stdlib.h>
#include <sys/mman.h>
#include <sys/uio.h>
#include <unistd.h>

static struct { long calls, failed, taken, ended; } *told;
static long failing, most;

/* Whether this call fails; its kind is told: 1 of the rule file, 2 of the script, 3 of the output, 4 where the script
   stands. */
static int fails(long kind) {
    if (!told) {
        int (*opens)(const char *, int, ...) = dlsym(RTLD_NEXT, "open");
        int file = opens(getenv("FAILING_TOLD"), O_RDWR);
        told = mmap(0, sizeof *told, PROT_READ | PROT_WRITE, MAP_SHARED, file, 0);
        failing = atol(getenv("FAILING_CALL"));
        most = atol(getenv("FAILING_MOST"));
    }
    if (++told->calls != failing) return 0;
    told->failed = kind;
    errno = EIO;
    return 1;
}

static size_t short_of(size_t size) {
    return most && size > (size_t)most ? (size_t)most : size;
}

int open(const char *path, int flags, ...) {
    va_list more;
    va_start(more, flags);
    mode_t mode = flags & O_CREAT ? va_arg(more, mode_t) : 0;
    va_end(more);
    int (*next)(const char *, int, ...) = dlsym(RTLD_NEXT, "open");
    return fails(1) ? -1 : next(path, flags, mode);
}

int openat(int folder, const char *path, int flags, ...) {
    va_list more;
    va_start(more, flags);
    mode_t mode = flags & O_CREAT ? va_arg(more, mode_t) : 0;
    va_end(more);
    int (*next)(int, const char *, int, ...) = dlsym(RTLD_NEXT, "openat");
    return fails(1) ? -1 : next(folder, path, flags, mode);
}

off_t lseek(int file, off_t at, int from) {
    off_t (*next)(int, off_t, int) = dlsym(RTLD_NEXT, "lseek");
    return fails(file ? 1 : 4) ? -1 : next(file, at, from);
}

ssize_t read(int file, void *bytes, size_t size) {
    ssize_t (*next)(int, void *, size_t) = dlsym(RTLD_NEXT, "read");
    if (fails(file ? 1 : 2)) return -1;
    ssize_t n = next(file, bytes, short_of(size));
    if (!file && n > 0) told->taken += n;
    if (!file && !n) told->ended = 1;
    return n;
}

ssize_t write(int file, const void *bytes, size_t size) {
    ssize_t (*next)(int, const void *, size_t) = dlsym(RTLD_NEXT, "write");
    return fails(3) ? -1 : next(file, bytes, short_of(size));
}

ssize_t writev(int file, const struct iovec *pieces, int count) {
    for (int i = 0; i < count; i++)
        if (pieces[i].iov_len) return write(file, pieces[i].iov_base, pieces[i].iov_len);
    return 0;
}
"""


class Ended(NamedTuple):
    status: int
    printed: bytes


class Told(NamedTuple):
    """What the library tells of a run: how many calls there were, of what the failed one was, how many bytes of the
    script were taken, and whether its end was told."""
    calls: int
    failed: int
    taken: int
    ended: int


class Behind:
    """The program behind the library."""

    def __init__(self, program: Path, folder: Path) -> None:
        self.program, self.folder, self.told = program, folder, folder / "told"
        source, self.library = folder / "failing.c", folder / "failing.so"
        source.write_text(LIBRARY)
        subprocess.run([os.environ.get("CC", "cc"), "-O1", "-shared", "-fPIC", "-o", self.library, source, "-ldl"],
                       check=True)

    def run(self, row: Row, call: int = 0, most: int = 0, script: Optional[bytes] = None) -> tuple[Ended, Told]:
        """The run in pieces of so many bytes (0: whole) of which this call fails (0: none)."""
        self.told.write_bytes(bytes(32))
        rules = self.folder / f"{row.name}.drl"
        rules.write_bytes(row.rules)
        outside = {"LD_PRELOAD": str(self.library), "FAILING_TOLD": str(self.told), "FAILING_CALL": str(call),
                   "FAILING_MOST": str(most)}
        given = row.script if script is None else script
        done = subprocess.run([self.program, rules], input=given, stdout=subprocess.PIPE, env=outside, timeout=60)
        return Ended(done.returncode, done.stdout), Told(*struct.unpack("4l", self.told.read_bytes()))


def taken_lines(script: bytes, taken: int) -> bytes:
    """The lines of which the ends are among so many first bytes."""
    return script[: script.rfind(b"\n", 0, taken) + 1]


def is_as_wanted(behind: Behind, row: Row, whole: Ended, ended: Ended, told: Told) -> bool:
    """Whether a run of which a call failed ended as it is to end."""
    if told.failed == 2:
        lines, _ = behind.run(row, script=row.script if told.ended else taken_lines(row.script, told.taken))
        return ended == Ended(5, lines.printed)
    if told.failed == 4:
        return ended == whole
    return ended.status == (6 if told.failed == 3 else 5) and whole.printed.startswith(ended.printed)


def fail_each(behind: Behind, row: Row, whole: Ended, most: int) -> bool:
    """Each call of a run in pieces of so many bytes fails in turn."""
    good = True
    statuses: Counter[int] = Counter()
    _, told = behind.run(row, most=most)
    for call in range(1, told.calls + 1):
        ended, failed = behind.run(row, call, most)
        statuses[ended.status] += 1
        if not is_as_wanted(behind, row, whole, ended, failed):
            print(f"{row.name}, call {call} in pieces of {most or 'any'}: status {ended.status}, to "
                  f"{ended.printed[-40:]!r}", flush=True)
            good = False
    ends = ", ".join(f"{count} ended with {status}" for status, count in sorted(statuses.items()))
    print(f"{row.name}, in pieces of {most or 'any'} bytes: {told.calls} calls, {ends}", flush=True)
    return good


def all_runs(behind: Behind) -> bool:
    good = True
    for row in rows():
        whole, _ = behind.run(row)
        good = fail_each(behind, row, whole, 0) and good
        for most in PIECES:
            ended, told = behind.run(row, most=most)
            how = "as the whole run" if ended == whole else "OTHERWISE"
            print(f"{row.name}, in pieces of {most} bytes: {told.calls} calls, {how}", flush=True)
            good = good and ended == whole
            if row.name == "bank":
                good = fail_each(behind, row, whole, most) and good
    return good


def main() -> int:
    parser = Parser(description="Lets the calls of the machine fail or fall short under the program.")
    parser.add_argument("--program", type=Path, default=BUILT)
    wanted = parser.parse_args()
    try:
        with tempfile.TemporaryDirectory() as folder:
            return 0 if all_runs(Behind(wanted.program.resolve(strict=True), Path(folder))) else 1
    except (OSError, subprocess.CalledProcessError) as fault:
        print(fault, file=sys.stderr)
        return 2


if __name__ == "__main__":
    sys.exit(main())
