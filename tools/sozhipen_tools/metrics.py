"""Tells what a run keeps and has done, as text that Prometheus reads.

    tools/run metrics IMAGE RULES [--label NAME=VALUE ..] [--out FILE]
    tools/run metrics IMAGE RULES --facts

IMAGE is an image of the program, or a folder of examples/live/keeper.py, of which the last image is taken. With --out
the text is written to a file that is whole whenever somebody reads it, as the textfile collector of the node exporter
wants it. With --facts the kept facts are printed, one JSON object a line. The status is 2 if the image cannot be read
or is of other rules.

A program that uses the client has `text_of(of_counts(session.counts()))` without an image.
"""

from __future__ import annotations

import argparse
import json
import os
import sys
from collections import Counter
from dataclasses import dataclass, field
from pathlib import Path
from typing import Any, Iterable, Iterator, Mapping, Optional, Union

from .reference.images.image import BadImage, Image, decode
from .reference.images.show import show
from .reference.meaning.program import Program
from .reference.meaning.run import program_or_refusal
from .words import Parser

Labels = Mapping[str, str]


class NoMetrics(Exception):
    """Why there is nothing to tell."""


@dataclass
class Family:
    """A metric: its name, its kind (`gauge` or `counter`), what it means, and its values by labels."""
    name: str
    kind: str
    help: str
    samples: list[tuple[dict[str, str], Union[int, float]]] = field(default_factory=list)

    @classmethod
    def of_one(cls, name: str, kind: str, help: str, value: Union[int, float]) -> "Family":
        return cls(name, kind, help, [({}, value)])

    @classmethod
    def of_each(cls, name: str, kind: str, help: str, label: str, values: Mapping[str, int]) -> "Family":
        return cls(name, kind, help, [({label: key}, value) for key, value in values.items()])


# ---- the text


def escaped(text: str) -> str:
    return text.replace("\\", "\\\\").replace("\n", "\\n")


def sample(name: str, labels: Labels, value: Union[int, float]) -> str:
    quoted = ",".join('{}="{}"'.format(key, escaped(text).replace('"', '\\"')) for key, text in labels.items())
    return f"{name}{{{quoted}}} {value}" if quoted else f"{name} {value}"


def text_of(families: Iterable[Family], labels: Optional[Labels] = None) -> str:
    """The families in the text format of Prometheus, with these labels at each value."""
    lines = []
    for family in families:
        lines += [f"# HELP {family.name} {escaped(family.help)}", f"# TYPE {family.name} {family.kind}"]
        lines += [sample(family.name, {**(labels or {}), **own}, value) for own, value in family.samples]
    return "".join(line + "\n" for line in lines)


# ---- what is told


def progress(clock: int, lines: int) -> Iterator[Family]:
    yield Family.of_one("sozhipen_clock_milliseconds", "gauge", "The clock of the run.", clock)
    yield Family.of_one("sozhipen_script_lines_total", "counter", "Lines of the script so far.", lines)


def all_firings(firings: int) -> Family:
    return Family.of_one("sozhipen_firings_total", "counter", "Firings so far, those before earlier images among them.",
                         firings)


def kept_facts(kept: Mapping[str, int]) -> Family:
    return Family.of_each("sozhipen_kept_facts", "gauge", "Facts that are kept.", "type", kept)


def of_floors(floors: Mapping[str, int]) -> Family:
    return Family.of_each("sozhipen_floor_milliseconds", "gauge", "The earliest start that an entry point accepts.",
                          "entry", floors)


def of_counts(counts: Mapping[str, Any]) -> Iterator[Family]:
    """What `counts()` of a client's session tells."""
    yield from progress(counts["clock"], counts["lines"])
    yield Family.of_each("sozhipen_rule_firings_total", "counter", "Firings since this program began.", "rule",
                         counts["firings"])
    yield Family.of_each("sozhipen_faults_total", "counter", "Faulty lines and actions since this program began.",
                         "code", counts["faults"])
    if "facts" in counts:
        yield Family.of_each("sozhipen_named_facts", "gauge", "Plain facts, and events that an answer may still name.",
                             "type", counts["facts"])
    if "kept" in counts:
        yield all_firings(counts["all_firings"])
        yield kept_facts(counts["kept"])
        yield Family.of_one("sozhipen_pending_matches", "gauge", "Matches that wait for a fire.", counts["pending"])
        yield of_floors(counts["floors"])


def floors(image: Image, program: Program) -> dict[str, int]:
    """By entry point the earliest start that is still accepted."""
    latenesses = program.latenesses.items()
    return {name: max(start, promise, image.clock - lateness)
            for (name, lateness), start, promise in zip(latenesses, image.last_starts, image.promises)}


def of_image(image: Image, program: Program) -> Iterator[Family]:
    """What an image of these rules tells."""
    types = list(program.types)
    kept = Counter(types[fact.type] for fact in image.facts)
    fired = Counter(program.title(match.rule) for match in image.fired)
    titles = dict.fromkeys(program.title(rule) for rule in range(len(program.rules)))
    yield from progress(image.clock, image.run.lines)
    yield all_firings(image.run.firings)
    yield Family.of_one("sozhipen_faulty", "gauge", "1 if some line or action so far was faulty.",
                        int(image.run.faulty))
    yield kept_facts({name: kept[name] for name in types})
    yield Family.of_each("sozhipen_fired_matches", "gauge", "Matches that have fired and still stand.", "rule",
                         {title: fired[title] for title in titles})
    yield Family.of_one("sozhipen_rows_with_forgotten_events", "gauge",
                        "Rows of conditions that still count forgotten events.", len(image.extras))
    yield of_floors(floors(image, program))


def of_file(path: Path) -> Iterator[Family]:
    """What the file of an image tells."""
    status = path.stat()
    yield Family.of_one("sozhipen_image_bytes", "gauge", "The size of the last image.", status.st_size)
    yield Family.of_one("sozhipen_image_timestamp_seconds", "gauge", "When the last image was written, since 1970.",
                        round(status.st_mtime, 3))


def facts_of(image: Image, program: Program) -> Iterator[dict[str, Any]]:
    """The kept facts, in the order in which they came."""
    types, entries = list(program.types.values()), list(program.latenesses)
    for fact in image.facts:
        info = types[fact.type]
        fields = dict(zip(info.fields, fact.fields))
        yield {"id": fact.id, "type": info.name, "entry": entries[fact.entry], "fields": fields}


# ---- files


def last_image(path: Path) -> Path:
    """The image of this name, or the last one in a folder of the keeper."""
    if not path.is_dir():
        return path
    names = [name for name in (path / "image").glob("*") if name.name.isdigit()]
    if not names:
        raise NoMetrics(f"there is no image in {path}/image yet")
    return max(names, key=lambda name: int(name.name))


def read(path: Path, rules: Path) -> tuple[Image, Program]:
    """An image, and the program of the rule file that it was made with."""
    program = program_or_refusal(rules.read_bytes())
    if isinstance(program, str):
        raise NoMetrics(f"{rules}: {program}")
    try:
        image = decode(path.read_bytes())
    except BadImage:
        raise NoMetrics(f"{path}: these bytes are no image") from None
    if image.run.rules != show(list(program.written)):
        raise NoMetrics(f"{path}: the image is of other rules than {rules}")
    return image, program


def put(text: str, out: Optional[Path]) -> None:
    if out is None:
        print(text, end="")
        return
    part = out.with_name(f"{out.name}.{os.getpid()}.part")
    part.write_text(text, encoding="utf-8")
    os.replace(part, out)


def label(word: str) -> tuple[str, str]:
    name, equals, value = word.partition("=")
    if not equals or not name.isidentifier():
        raise argparse.ArgumentTypeError(f"{word}: a label is NAME=VALUE")
    return name, value


def main() -> int:
    parser = Parser(prog="metrics", description=__doc__, formatter_class=argparse.RawDescriptionHelpFormatter)
    parser.add_argument("image", type=Path, metavar="IMAGE")
    parser.add_argument("rules", type=Path, metavar="RULES")
    parser.add_argument("--label", type=label, action="append", default=[], metavar="NAME=VALUE")
    parser.add_argument("--out", type=Path, metavar="FILE")
    parser.add_argument("--facts", action="store_true")
    words = parser.parse_args()
    try:
        path = last_image(words.image)
        image, program = read(path, words.rules)
        if words.facts:
            text = "".join(json.dumps(fact, ensure_ascii=False) + "\n" for fact in facts_of(image, program))
        else:
            text = text_of([*of_image(image, program), *of_file(path)], dict(words.label))
        put(text, words.out)
    except (NoMetrics, OSError) as error:
        print(f"metrics: {error}", file=sys.stderr)
        return 2
    return 0


if __name__ == "__main__":
    sys.exit(main())
