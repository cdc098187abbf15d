"""The lanes of the picture and the marks in them, each with the text that is read when it is pointed at."""

from __future__ import annotations

from dataclasses import asdict, dataclass
from typing import Iterable, Optional

from .clock import Clock, clock_of
from .recording import Cell, Change, Fault, Firing, Life, Promised, Recording, Value

FAULTS, PROMISES, EVENTS, FACTS, FIRINGS = "faults", "promises", "events", "facts", "firings"
TEXT_SHOWN, LABEL_SHOWN = 240, 16


@dataclass(frozen=True)
class Lane:
    kind: str
    name: str
    under: str


@dataclass(frozen=True)
class Mark:
    """A fact, a firing, a fault or a promise, from `start` to `end`. `names` are the keys of the marks that it names,
    `makes` those of the facts that it inserts; `changes` are moments of modifications; `gone` is the moment from which
    an event counts no more, or up to which a promise is ahead of the clock; `lasts` says of a plain fact that it is
    there at the end; `since` and `until` bound the waiting of a negative."""
    key: str
    kind: str
    lane: int
    start: int
    end: int
    label: str
    text: str
    names: tuple[str, ...] = ()
    makes: tuple[str, ...] = ()
    changes: tuple[int, ...] = ()
    gone: Optional[int] = None
    lasts: bool = False
    since: Optional[int] = None
    until: Optional[int] = None


@dataclass(frozen=True)
class Picture:
    lanes: list[Lane]
    marks: list[Mark]
    end: int
    clock: Clock

    def data(self) -> dict:
        """The picture for the page's script, without what a mark does not have."""
        def has(value: object) -> bool:
            return value is not None and value is not False and value != ()

        marks = [{name: value for name, value in asdict(mark).items() if has(value)} for mark in self.marks]
        return {"lanes": [asdict(lane) for lane in self.lanes], "marks": marks, "end": self.end,
                "dates": self.clock.dates}


def shown(value: object) -> str:
    """A value of a field as it is read: texts stand in quotes."""
    if isinstance(value, bool):
        return str(value).lower()
    return f'"{cut(value)}"' if isinstance(value, str) else str(value)


def cut(text: str, most: int = TEXT_SHOWN) -> str:
    return text if len(text) <= most else text[:most] + " …"


def numbered(numbers: Iterable[int]) -> str:
    return ", ".join(f"#{number}" for number in numbers)


def cells_text(cells: tuple[Cell, ...]) -> str:
    return " ".join(f"{sign}{number}" for sign, number in cells)


# ---- facts and events


def origin_text(life: Life, clock: Clock) -> str:
    """Who inserted a fact, and when."""
    by = f"line {life.line}" if life.maker is None else f"firing {life.maker}"
    return f"inserted at {clock.text(life.told)} by {by}"


def times_text(life: Life, clock: Clock) -> str:
    if not life.event:
        return ""
    start, end = clock.text(life.start), clock.text(life.end)
    return f"at {start}" if start == end else f"from {start} to {end}"


def end_text(life: Life, clock: Clock) -> str:
    if life.gone is None:
        return ""
    return f"{'retracted' if life.retracted else 'expires'} at {clock.text(life.gone)}"


def fields_text(values: dict[str, Value]) -> str:
    return ", ".join(f"{name} {shown(value)}" for name, value in values.items())


def change_text(change: Change, clock: Clock) -> str:
    return f"modified at {clock.text(change.clock)} ({fields_text(change.values)})"


def life_text(life: Life, clock: Clock) -> str:
    origin = f"{origin_text(life, clock)} ({fields_text(life.values)})"
    parts = [times_text(life, clock), origin, *(change_text(change, clock) for change in life.changes),
             end_text(life, clock)]
    return f"#{life.number} {life.type} in {life.entry}: " + "; ".join(part for part in parts if part)


def life_label(life: Life) -> str:
    """The number, and the first field that is no time."""
    if life.first is None:
        return f"#{life.number}"
    value = life.values[life.first]
    return f"#{life.number} {life.first} {cut(value, LABEL_SHOWN) if isinstance(value, str) else shown(value)}"


def life_mark(life: Life, lane: int, end: int, clock: Clock) -> Mark:
    label, text = life_label(life), life_text(life, clock)
    gone = life.gone if life.gone is not None and life.gone <= end else None
    if life.event:
        return Mark(f"f{life.number}", EVENTS, lane, life.start, life.end, label, text, gone=gone)
    return Mark(f"f{life.number}", FACTS, lane, life.start, end if gone is None else gone, label, text,
                changes=tuple(change.clock for change in life.changes), lasts=gone is None)


# ---- firings and faults


def firing_text(firing: Firing, clock: Clock) -> str:
    waiting, made, at = firing.waiting, firing.made, clock.text(firing.clock)
    cells = cells_text(firing.cells)
    parts = [f'firing {firing.number} of line {firing.line}, at {at}: "{firing.rule}" {cells}'.rstrip()]
    if firing.variables:
        parts.append(", ".join(f"${name} {shown(value)}" for name, value in firing.variables.items()))
    if waiting:
        parts.append(f"waited from {clock.text(waiting.since)} to {clock.text(waiting.until)} for {waiting.type}")
    if made:
        parts.append(f"inserted {numbered(made)}")
    return "; ".join(parts)


def firing_mark(firing: Firing, lane: int, clock: Clock) -> Mark:
    waiting = firing.waiting
    return Mark(f"r{firing.number}", FIRINGS, lane, firing.clock, firing.clock, cells_text(firing.cells),
                firing_text(firing, clock), names=tuple(f"f{number}" for number in dict.fromkeys(firing.facts)),
                makes=tuple(f"f{number}" for number in firing.made),
                since=None if waiting is None else waiting.since, until=None if waiting is None else waiting.until)


def fault_mark(fault: Fault, lane: int, clock: Clock) -> Mark:
    names = () if fault.firing is None else (f"r{fault.firing}",)
    return Mark(f"x{fault.number}", FAULTS, lane, fault.clock, fault.clock, f"{fault.code}, line {fault.line}",
                f"fault {fault.line} {fault.code}, at {clock.text(fault.clock)}: {cut(fault.text)}", names=names)


def promised(promise: Promised, clock: Clock) -> str:
    """What a line promises."""
    return f"no event that starts before {clock.text(promise.start)} comes into {promise.entry}"


def promise_mark(promise: Promised, lane: int, end: int, clock: Clock) -> Mark:
    text = f"line {promise.line}, at {clock.text(promise.clock)}: {promised(promise, clock)}"
    ahead = promise.start if promise.clock < promise.start <= end else None
    return Mark(f"p{promise.number}", PROMISES, lane, promise.clock, promise.clock,
                f"{promise.entry} from {clock.text(promise.start)}", text, gone=ahead)


# ---- the picture


def lane_of_life(life: Life) -> Lane:
    kind = EVENTS if life.event else FACTS
    return Lane(kind, life.type, f"{kind} in {life.entry}")


def lane_of_rule(rule: str) -> Lane:
    return Lane(FIRINGS, rule, "rule")


PROMISED = Lane(PROMISES, "promises", "of entry points")


def lanes_of(recording: Recording) -> list[Lane]:
    """Faults; promises; then each entry point and type in the order of their first facts; then the rules that fired, in
    the order of the file."""
    fired = {firing.rule for firing in recording.firings}
    lives = list(dict.fromkeys(lane_of_life(life) for life in recording.lives.values()))
    faults = [Lane(FAULTS, "faults", "of lines and actions")] if recording.faults else []
    promises = [PROMISED] if recording.promises else []
    return faults + promises + lives + [lane_of_rule(rule) for rule in recording.rules if rule in fired]


def picture_of(recording: Recording) -> Picture:
    lanes, clock = lanes_of(recording), clock_of(recording)
    place = {lane: k for k, lane in enumerate(lanes)}
    marks = [fault_mark(fault, 0, clock) for fault in recording.faults]
    end = recording.end
    marks += [promise_mark(promise, place[PROMISED], end, clock) for promise in recording.promises]
    marks += [life_mark(life, place[lane_of_life(life)], end, clock) for life in recording.lives.values()]
    marks += [firing_mark(firing, place[lane_of_rule(firing.rule)], clock) for firing in recording.firings]
    return Picture(lanes, marks, recording.end, clock)
