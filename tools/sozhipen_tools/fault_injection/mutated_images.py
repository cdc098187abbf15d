"""Holds the images of crates/checkpoint against those of the second evaluator, and against a million spoilt ones.

    tools/run fault_injection.mutated_images [--worlds N] [--images N] [--seed N] [--program FILE]

Images of random worlds, written by the second evaluator, have to be decoded and encoded to the same bytes. Then of such
images a byte is changed, bytes are cut or added, or a length is made huge: each has to be refused or encoded to the
same bytes, as the second evaluator says. One process answers all; its peak of memory is printed ten times, and may not
rise by more than 1 MiB behind the first. The process is a small program, PROGRAM below, which `rt run` proves and
builds in a copy of the crates that it stands on: minutes, where `rt check` has not proved them in this clone. With
--program it is kept in this file, and taken from there the next time. The status is 0 where all was as it has to be, 1
where it was not, and 2 where there is no program. It wants Linux, for the peak.
"""

from __future__ import annotations

import re
import shutil
import subprocess
import sys
import tempfile
from collections import Counter
from pathlib import Path
from queue import Queue
from random import Random
from threading import Thread
from typing import Iterator, NamedTuple, Optional

from ..pipes import pipe
from ..places import clone
from ..reference.generators.generate import case_of, lives_case_of
from ..reference.images.image import BadImage, decode, encode
from ..reference.images.resume import saved
from ..reference.meaning.run import program_or_refusal, run
from ..reference.meaning.script import lines_of
from ..words import Parser

NAME = "image_answers"
STANDS_ON = "checkpoint"
SLACK = 1024  # KiB

PROGRAM = """\
//! For each image on standard input, which has its length as a u64 before it, writes the bytes that it is encoded to
//! again, in the same form; a length of 0 where it is refused.
#![tactic(auto)]

use checkpoint::{DecodeFault, decode, encode};
use std::alloc::{AllocError, Global};
use std::io::{self, BufReader, BufWriter, Read, Write};
use std::process::ExitCode;

/// The bytes of the image that these bytes are; none where they are no image's.
fn again(alloc: Global, bytes: &[u8]) -> Result<Vec<u8>, AllocError> {
    match decode(alloc, bytes) {
        Ok(image) => encode(alloc, &image).map_err(|_| AllocError),
        Err(DecodeFault::BadImage) => Ok(Vec::new(alloc)),
        Err(DecodeFault::NoMemory) => Err(AllocError),
    }
}

/// Answers the next image. False where no other comes.
fn answer_next<R: Read, W: Write>(
    alloc: Global,
    source: &mut R,
    out: &mut W,
) -> io::Result<bool> {
    let mut head = [0_u8; 8];
    if source.read_exact(&mut head).is_err() {
        return Ok(false);
    }
    let mut bytes = vec![in alloc; 0_u8; u64::from_be_bytes(head) as usize]?;
    source.read_exact(&mut bytes)?;
    let answer = again(alloc, &bytes)?;
    out.write_all(&(answer.len() as u64).to_be_bytes())?;
    out.write_all(&answer)?;
    Ok(true)
}

fn answer_all(rt: &HostRuntime) -> io::Result<()> {
    let alloc = rt.alloc();
    let mut source = BufReader::new(alloc, rt.reader())?;
    let mut out = BufWriter::new(alloc, io::writer(rt))?;
    for _ in 0..u64::MAX {
        if !answer_next(alloc, &mut source, &mut out)? {
            break;
        }
    }
    out.flush()
}

fn main(rt: HostRuntime) -> ExitCode {
    match answer_all(&rt) {
        Ok(()) => ExitCode::from(0),
        Err(_) => ExitCode::from(1),
    }
}
"""


# ---- the program


def crates_below(name: str) -> dict[str, str]:
    """The lines of crates.txt of a crate and all that it stands on."""
    lines = {line.split(":")[0].strip(): line
             for line in (clone() / "crates.txt").read_text(encoding="utf-8").splitlines() if ":" in line}
    found, left = {}, [name]
    while left:
        crate = left.pop()
        if crate in lines and crate not in found:
            found[crate] = lines[crate]
            left += lines[crate].split(":")[1].split()
    return found


def build(program: Path) -> None:
    """Proves and builds the program in a copy, and puts it there."""
    with tempfile.TemporaryDirectory(prefix="mutated-images-") as name:
        room, crates = Path(name), crates_below(STANDS_ON)
        for crate in crates:
            shutil.copytree(clone() / "crates" / crate, room / "crates" / crate)
        (room / "crates" / NAME / "src").mkdir(parents=True)
        (room / "crates" / NAME / "src/main.rt").write_text(PROGRAM, encoding="utf-8")
        (room / "crates.txt").write_text("\n".join([*crates.values(), f"{NAME}: {STANDS_ON}"]) + "\n", encoding="utf-8")
        shutil.copy(clone() / "HANDLES", room / "HANDLES")
        nothing = subprocess.DEVNULL
        subprocess.run(["rt", "run", "--jobs", "2"], cwd=room / "crates" / NAME, stdin=nothing, stdout=nothing,
                       check=True)
        program.parent.mkdir(parents=True, exist_ok=True)
        shutil.copy(room / "crates" / NAME / "out" / NAME, program)


# ---- images


def world_images(count: int, seed: int) -> Iterator[bytes]:
    """The images of so many random worlds, by random rule files and fronts of scripts."""
    while count:
        case = case_of(seed) if seed % 3 == 0 else lives_case_of(seed)
        program, rng = program_or_refusal(case.rules), Random(f"images/{seed}")
        seed += 1
        if isinstance(program, str):
            continue
        lines = lines_of(case.script)
        state = run(program, b"".join(line + b"\n" for line in lines[:rng.randint(0, len(lines))]),
                    case.limit or 100_000)
        if not state.ended:
            count -= 1
            yield saved(state)


class Spoilt(NamedTuple):
    how: str
    data: bytes


class Spoiler:
    """Makes other bytes of images."""

    def __init__(self, images: list[bytes], rng: Random) -> None:
        self.images, self.rng = images, rng
        # where a number below 256 stands: a length, or another number
        self.small = [[m.start() for m in re.finditer(rb"(?s)(?=\0{7}.)", data)] for data in images]

    def next(self) -> Spoilt:
        rng = self.rng
        number = rng.randrange(len(self.images))
        data, how = self.images[number], rng.choice(["changed", "cut", "added", "huge"])
        k = rng.randrange(len(data) + 1)
        if how == "changed":
            k = rng.randrange(len(data))
            return Spoilt(how, data[:k] + bytes([rng.choice([rng.randrange(256), rng.randrange(4), data[k] ^ 1])])
                          + data[k + 1:])
        if how == "cut":
            return Spoilt(how, data[:k] + rng.choice([b"", data[k + rng.choice([1, 8, 16, rng.randrange(64)]):]]))
        if how == "added":
            other = self.images[rng.randrange(len(self.images))]
            at = rng.randrange(len(other))
            more = rng.choice([rng.randbytes(rng.choice([1, 8, 16])), bytes(rng.choice([1, 8, 16])),
                               other[at:at + rng.randrange(64)]])
            return Spoilt(how, rng.choice([data[:k] + more + data[k:], data + more]))
        k = rng.choice(self.small[number])
        length = rng.choice([data[k + 7] + 1, 2**16, 2**31, 2**32, 2**40, 2**60, 2**61 + 1, 2**63, 2**64 - 1,
                             rng.randrange(2**64)])
        return Spoilt(how, data[:k] + length.to_bytes(8, "big") + rng.choice([b"", data[k + 8:]]))


# ---- answers


class Answerer:
    """The running program: images go in, what it answers is looked at in a thread of its own."""

    def __init__(self, program: Path) -> None:
        self.process = subprocess.Popen([program], stdin=subprocess.PIPE, stdout=subprocess.PIPE)
        self.counts: Counter = Counter()
        self.faults: list[str] = []
        self.asked: Queue[Optional[list[Spoilt]]] = Queue(16)
        self.reader = Thread(target=self.look, daemon=True)
        self.reader.start()

    def ask(self, images: list[Spoilt]) -> None:
        self.asked.put(images)
        pipe(self.process.stdin).write(b"".join(len(image.data).to_bytes(8, "big") + image.data for image in images))
        pipe(self.process.stdin).flush()

    def look(self) -> None:
        while (images := self.asked.get()) is not None:
            for image in images:
                head = pipe(self.process.stdout).read(8)
                again = pipe(self.process.stdout).read(int.from_bytes(head, "big"))
                if len(head) < 8:
                    self.faults.append("the program ended")
                    return
                self.counts[image.how, bool(again)] += 1
                if again and again != image.data:
                    self.faults.append(f"{image.data!r} ({image.how}) is encoded to {again!r}")
                if image.how == "world" and not again:
                    self.faults.append(f"{image.data!r} of a world is refused")
                if bool(again) != is_image(image.data):
                    self.faults.append(f"{image.data!r} ({image.how}): the second evaluator says otherwise")

    def peak(self) -> int:
        """The peak of its memory so far, in KiB, with what was asked for and never touched."""
        status = Path(f"/proc/{self.process.pid}/status").read_text(encoding="ascii")
        return int(re.findall(r"VmPeak:\s+(\d+) kB", status)[0])

    def end(self) -> int:
        self.asked.put(None)
        pipe(self.process.stdin).close()
        self.reader.join()
        return self.process.wait()


def is_image(data: bytes) -> bool:
    try:
        return encode(decode(data)) == data
    except BadImage:
        return False


def told(counts: Counter, how: str) -> str:
    return f"{how}: {counts[how, True]} the same, {counts[how, False]} refused"


def tried(program: Path, worlds: int, count: int, seed: int) -> bool:
    images = list(world_images(worlds, seed))
    answerer, spoiler = Answerer(program), Spoiler(images, Random(f"spoilt/{seed}"))
    answerer.ask([Spoilt("world", data) for data in images])
    print(f"{len(images)} images of worlds, {min(map(len, images))} to {max(map(len, images))} bytes", flush=True)
    peaks, tenth = [], max(1, count // 10)
    for first in range(0, count, tenth):
        for begin in range(first, min(first + tenth, count), 1000):
            answerer.ask([spoiler.next() for _ in range(min(1000, first + tenth - begin, count - begin))])
        peaks.append(answerer.peak())
        print(f"{min(first + tenth, count)} spoilt images, peak {peaks[-1]} KiB", flush=True)
    status = answerer.end()
    print("\n".join(told(answerer.counts, how) for how in ("world", "changed", "cut", "added", "huge")))
    for fault in answerer.faults[:5]:
        print(fault)
    is_flat = not peaks or peaks[-1] <= peaks[0] + SLACK
    if not is_flat:
        print("the peak rose")
    return not answerer.faults and is_flat and status == 0


def main() -> int:
    parser = Parser(description="Holds the images of the program against those of the second evaluator.")
    parser.add_argument("--worlds", type=int, default=1000)
    parser.add_argument("--images", type=int, default=1_000_000, help="how many are spoilt")
    parser.add_argument("--seed", type=int, default=0)
    parser.add_argument("--program", type=Path, help="where the program is, or is to be kept")
    asked = parser.parse_args()
    with tempfile.TemporaryDirectory() as folder:
        program = (asked.program or Path(folder) / NAME).resolve()
        try:
            if not program.is_file():
                build(program)
        except (OSError, subprocess.CalledProcessError) as fault:
            print(fault, file=sys.stderr)
            return 2
        return 0 if tried(program, asked.worlds, asked.images, asked.seed) else 1


if __name__ == "__main__":
    sys.exit(main())
