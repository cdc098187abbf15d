"""Holds runs whose rules are changed against what the definition says of them, on random rule files and scripts.

    tools/run reference.comparers.changes [--seeds A B] [--folder FOLDER] [--keep-going] [--seconds N] [PROGRAM]

A seed has a rule file, others that are made of it one after the other, and the lines that are run under each; sometimes
events are kept for rules that come later. Three answer them. The definition keeps every event: its world is that of all
lines so far, whose matches are found anew behind each line by every condition and every fact, and other rules make of
it what change_definition.py says. The evaluator goes on from images: under each file it has the bytes of the image that
the run before it left, and nothing else. PROGRAM, a program `desk`, does the same, on files. All that they print, their
statuses, and the images that they leave have to be the same, also where no line is between two images; where rules are
refused, the run goes on under those of before. Every other seed is answered in lines of text, the others in objects.

Of rules that stay, the definition has to print the firings that a run of the old rules prints under the same lines,
line by line, and in the same order where these rules stand in the same order. That is asked where it has to be so:
where no other rule has an action, where rules that stand in another order have none either, and where the rules observe
the same types; of lines that say how often to fire that is left out.

The files of the first difference are left in the folder. The last line says what was seen. The status is 0 where all
was as it has to be, 1 where it was not.
"""

from __future__ import annotations

import json
import os
import sys
import tempfile
from collections import Counter
from dataclasses import dataclass, replace
from itertools import zip_longest
from typing import Any, Callable, Container, Iterator, Optional

from ...words import Parser
from ..desk import desk_at_start
from ..generators.random_changes import FIRE, LIMIT, Part, accepted, changes_of, first_program, world_under
from ..images.changes import new_rules, refusal, rules_that_stay
from ..images.image import decode
from ..images.resume import Refused, saved
from ..images.show import show
from ..meaning.answers import Answer as Said, Fired, LimitOfLine, RuleChanged, object_of, text_of
from ..meaning.desk import Desk
from ..meaning.keeping import lives_of
from ..meaning.program import Program
from ..meaning.trees import Folded
from ..meaning.worlds import World
from .change_definition import HistoryWorld, begun_for, changed_by, first_longer, told_by, verdict
from .compare import absolute
from .desk import Answer, difference, ran, read_file

# Of the parts, and whether they are answered in lines of text.
Answers = Callable[[list[Part], bool], Iterator[Answer]]


# ---- what the definition says


@dataclass
class Told(Desk):
    """A desk that also keeps what it has answered, with the numbers of the lines."""

    def __post_init__(self) -> None:
        self.said: list[tuple[int, Said]] = []

    def tell(self, number: int, *answers: Said) -> None:
        self.said += [(number, answer) for answer in answers]
        super().tell(number, *answers)


def told_over(world: World, as_text: bool = True, number: int = 0) -> Told:
    return Told(world, LIMIT, LIMIT, [], number=number, save=lambda run: None, write=text_of if as_text else object_of)


def under(state: Desk, lines: tuple[bytes, ...]) -> Desk:
    """The run behind these lines."""
    for line in lines:
        state.number += 1
        state.line(state.number, line)
    return state


def answer_of(state: Desk) -> Answer:
    return Answer(text(state.lines), state.status, saved(state))


def text(lines: list[str]) -> bytes:
    return "".join(line + "\n" for line in lines).encode("utf-8")


def refused(code: str, image: Optional[bytes]) -> Answer:
    return Answer(text([f"refused checkpoint {code}"]), 9, image)


def are_others(old: Program, new: Program) -> bool:
    return show(old.written) != show(new.written)


def kept_rules(part: Part) -> Optional[Program]:
    return None if part.keep is None else accepted(part.keep)


@dataclass(frozen=True)
class Change:
    """What the definition makes of a world under the rules of a part: why it is refused, or the world, and what is told
    of its rules."""
    world: World
    code: Optional[str] = None
    told: tuple[RuleChanged, ...] = ()


def change_of(w: World, part: Part) -> Change:
    """By the rules first, then by those for which events are to be kept."""
    old, new, keep = w.program, accepted(part.rules), kept_rules(part)
    other, told = w, list[RuleChanged]()
    if are_others(old, new):
        if code := verdict(w, new):
            return Change(w, code)
        other, told = changed_by(w, new), told_by(old, new)
    if keep is not None and (name := first_longer(lives_of(other.program), keep)):
        return Change(w, f"Longer {name}")
    return Change(other, None, tuple(told))


def first_world(part: Part) -> HistoryWorld:
    return HistoryWorld(begun_for(accepted(part.rules), kept_rules(part)))


def by_definition(parts: list[Part], as_text: bool) -> Iterator[Answer]:
    """One answer for each part; before it another one where its rules are refused, and its lines run under those of
    before."""
    state: Desk = told_over(first_world(parts[0]), as_text)
    for part in parts:
        change = change_of(state.world, part)
        state.lines.clear()
        if change.code is not None:
            yield refused(change.code, saved(state))
        state.world = change.world
        state.tell(state.number, *change.told)
        yield answer_of(under(state, part.lines))


# ---- what goes on from images


def by_images(parts: list[Part], as_text: bool) -> Iterator[Answer]:
    program = accepted(parts[0].rules)
    image: Optional[bytes] = None
    for part in parts:
        try:
            state = desk_at_start(accepted(part.rules), LIMIT, as_text, image, lambda run: None, kept_rules(part))
            program = accepted(part.rules)
        except Refused as code:
            yield refused(str(code), image)
            state = desk_at_start(program, LIMIT, as_text, image, lambda run: None)
        answer = answer_of(under(state, part.lines))
        image = answer.image
        yield answer


def by_program(command: list[str], folder: str, seconds: float) -> Answers:
    def answers(parts: list[Part], as_text: bool) -> Iterator[Answer]:
        image = os.path.join(folder, "image")
        words = command + ["--limit", str(LIMIT), *["--text"] * as_text, "--image", "image"]
        last = parts[0].rules
        for part in parts:
            for file, keep in ((part.rules, part.keep), (last, None)):
                write_file(os.path.join(folder, "rules.drl"), file)
                write_file(os.path.join(folder, "keep.drl"), keep or b"")
                asked = words + ([] if keep is None else ["--keep", "keep.drl"]) + ["rules.drl"]
                output, status = ran(asked, b"".join(line + b"\n" for line in part.lines), folder, False, seconds)
                yield Answer(output, status, read_file(image) if os.path.exists(image) else None)
                if status != 9:
                    last = file
                    break
    return answers


def write_file(name: str, data: bytes) -> None:
    with open(name, "wb") as file:
        file.write(data)


# ---- rules that stay


def is_order_kept(old: Program, new: Program) -> bool:
    """The rules that stay stand one behind the other as before."""
    places = list(rules_that_stay(old, new).values())
    return places == sorted(places)


def have_to_print_the_same(old: Program, new: Program) -> bool:
    """Firings of other rules change nothing of what the rules that stay have."""
    stay = rules_that_stay(old, new)
    others = [rule for k, rule in enumerate(old.rules) if k not in stay] + [new.rules[k] for k in new_rules(old, new)]
    observed = {name for name in new.observed if name in old.types}
    return (not any(rule.actions for rule in others) and observed == old.observed
            and (is_order_kept(old, new) or not any(old.rules[k].actions for k in stay)))


def members_of(line: bytes) -> dict[str, Any]:
    """Those of the object in a line, where there is one."""
    try:
        found = json.loads(line)
    except ValueError:
        return {}
    return found if isinstance(found, dict) else {}


def is_of(program: Program, members: dict[str, Any]) -> bool:
    """A line names no type or entry point that is not the program's."""
    named: list[tuple[Any, Container[str]]] = [(members.get("type"), program.types),
                                               (members.get("entry"), program.latenesses)]
    return all(name in known for name, known in named if isinstance(name, str))


def lines_for_both(program: Program, lines: tuple[bytes, ...]) -> tuple[bytes, ...]:
    """Those lines that the old rules know too, each fire command as often as it goes, and one at the end."""
    known = [(line, members_of(line)) for line in lines if is_of(program, members_of(line))]
    return (*(FIRE if members.get("do") == "fire" else line for line, members in known), FIRE)


def firings_of(state: Told, places: dict[int, int]) -> list[tuple[int, tuple]]:
    """The firings of some rules, each with the number of its line; a rule by the place that it has here."""
    return [(number, (places[said.match.rule], *said.match.key[1:])) for number, said in state.said
            if isinstance(said, Fired) and said.match.rule in places]


def stayed_difference(state: Desk, other: World, lines: tuple[bytes, ...], counts: Counter[str]) -> Optional[str]:
    """What is wrong with the firings of the rules that stay in a world under other rules, behind a run under the old
    ones; nothing where a limit of firings was met."""
    old, new = state.world.program, other.program
    stay = rules_that_stay(old, new)
    both = [told_over(w, number=state.number) for w in (state.world, other)]
    for line in lines_for_both(old, lines):
        for run in both:
            under(run, (line,))
            if any(isinstance(said, LimitOfLine) for _, said in run.said):
                return None
    wanted, got = firings_of(both[0], stay), firings_of(both[1], {k: k for k in stay.values()})
    counts["firings of rules that stay"] += len(wanted)
    if not is_order_kept(old, new):
        wanted, got = sorted(wanted), sorted(got)
    if wanted == got:
        return None
    first = next(pair for pair in zip_longest(wanted, got) if pair[0] != pair[1])
    return f"of the rules that stay the old run fires {first[0]}, the changed one {first[1]}"


def stays(parts: list[Part], counts: Counter[str]) -> Optional[str]:
    """What is wrong with the firings of rules that stay, at some change."""
    state = told_over(first_world(parts[0]))
    for part in parts:
        new, change = accepted(part.rules), change_of(state.world, part)
        if change.told and have_to_print_the_same(state.world.program, new):
            counts["compared with the old run"] += 1
            if said := stayed_difference(state, change.world, part.lines, counts):
                return said
        state.world = change.world
        under(state, part.lines)
    return None


# ---- what differs


def compared(parts: list[Part], as_text: bool, answers: Answers) -> Optional[str]:
    """The first difference between what the definition says and what is answered."""
    for k, (wanted, got) in enumerate(zip_longest(by_definition(parts, as_text), answers(parts, as_text)), 1):
        if wanted is None or got is None:
            return f"run {k} is {'one too many' if wanted is None else 'missing'}"
        if said := difference(wanted, got):
            return f"run {k}: {said}"
    return None


def count(parts: list[Part], counts: Counter[str]) -> None:
    """What is to be seen at the beginnings of runs."""
    state: Desk = told_over(World(first_program(parts[0])))
    for k, part in enumerate(parts):
        old, new = state.world.program, accepted(part.rules)
        code, world = refusal(state.world, new), world_under(state.world, part)
        counts["events kept for rules to come"] += part.keep is not None
        if k and code is None and world is state.world:
            counts["refused for the rules to come"] += 1
        elif are_others(old, new):
            counts[f"refused {code.split(' ')[0]}" if code else "changed"] += 1
            if code is None:
                count_change(state, world, counts)
        elif k:
            counts["other comments or none"] += 1
        state.world = world
        under(state, part.lines)
    counts["firings"] += state.firings


def count_change(state: Desk, other: World, counts: Counter[str]) -> None:
    old, new = state.world.program, other.program
    stay = rules_that_stay(old, new)
    counts["rules that stay"] += len(stay)
    counts["new rules"] += len(new.rules) - len(stay)
    counts["gone rules"] += len(old.rules) - len(stay)
    counts["marks of new rules"] += sum(key[0] not in stay.values() for key in other.fired)
    counts["pending matches"] += sum(m.key not in other.fired for m in other.matches)
    image = decode(saved(replace(state, world=other)))
    counts["images with lives"] += image.lives is not None
    counts["rows that count forgotten events"] += len(image.extras)
    counts["of these in an accumulate"] += sum(
        isinstance(new.rules[e.rule].conditions[e.condition], Folded) for e in image.extras)


def keep(folder: str, seed: int, parts: list[Part]) -> str:
    """Leaves the rule files of a seed and the lines that are run under each."""
    place = os.path.join(folder, str(seed))
    os.makedirs(place, exist_ok=True)
    for k, part in enumerate(parts, 1):
        write_file(os.path.join(place, f"rules{k}.drl"), part.rules)
        if part.keep is not None:
            write_file(os.path.join(place, f"keep{k}.drl"), part.keep)
        write_file(os.path.join(place, f"lines{k}.jsonl"), b"".join(line + b"\n" for line in part.lines))
    return place


def first_difference(parts: list[Part], as_text: bool, counts: Counter, desk: Optional[list[str]] = None,
                     seconds: float = 60.0) -> Optional[str]:
    """What is wrong with the answers of the evaluator, or of a program where one is named."""
    if said := compared(parts, as_text, by_images):
        return said
    if desk is not None:
        with tempfile.TemporaryDirectory(prefix="changes-") as folder:
            if said := compared(parts, as_text, by_program(desk, folder, seconds)):
                return f"the program, {said}"
    return stays(parts, counts)


def main() -> int:
    parser = Parser(description="Holds runs whose rules are changed against what the definition says of them.")
    parser.add_argument("--seeds", type=int, nargs=2, default=(0, 100), metavar=("A", "B"), help="from A up to B - 1")
    parser.add_argument("program", nargs="?", metavar="PROGRAM",
                        help="a program `desk`, a command, which has to answer the same")
    parser.add_argument("--folder", default="reference-failures", help="where the files of failing seeds are left")
    parser.add_argument("--keep-going", action="store_true", help="do not stop at the first difference")
    parser.add_argument("--seconds", type=float, default=60.0, help="the time that a run of the program may take")
    asked = parser.parse_args()
    counts, desk = Counter[str](), absolute(asked.program) if asked.program else None
    for seed in range(*asked.seeds):
        parts = changes_of(seed)
        said = first_difference(parts, seed % 2 == 0, counts, desk, asked.seconds)
        counts["differ" if said else "agree"] += 1
        if said:
            print(f"seed {seed}: {said} (files in {keep(asked.folder, seed, parts)})", flush=True)
            if not asked.keep_going:
                break
        count(parts, counts)
    agree, differ = counts.pop("agree", 0), counts.pop("differ", 0)
    print(f"{agree} of {agree + differ} seeds agree: "
          + ", ".join(f"{name} {number}" for name, number in sorted(counts.items())))
    return 1 if differ else 0


if __name__ == "__main__":
    sys.exit(main())
