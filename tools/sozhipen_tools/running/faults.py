"""Why a line of a script, or an action of a rule, is faulty: which member, field, fact, floor or rule it is about."""

from __future__ import annotations

import re
from typing import Any, Iterable, Iterator

from ..reference.meaning import script
from ..reference.meaning.program import DEFAULT
from ..reference.meaning.run import TEXT_END, has_kind
from ..reference.meaning.trees import LengthWindow, Plain
from ..reference.meaning.worlds import (ClockMove, Insertion, Modification, Promise, Retraction, World, floor_of,
                                        start_and_duration)
from ..rulefile.forms import close_to
from .history import BEFORE, FaultyAction, History, faulty_actions, shown_value
from .moments import moment

KINDS = {"Int": "a whole number", "Bool": "a truth value", "Text": "a text"}
FORMS = {"insert": '{"do":"insert","type":"Item","fields":{..}}, with "entry" where it is not DEFAULT',
         "modify": '{"do":"modify","type":"Item","id":1,"fields":{..}}',
         "retract": '{"do":"retract","type":"Item","id":1}', "advance": '{"do":"advance","by":500}',
         "at": '{"do":"at","ms":10000}', "fire": '{"do":"fire"}, with "max" where it is bounded',
         "held": '{"do":"held"}', "promise": '{"do":"promise","from":5000}, with "entry" where it is not DEFAULT',
         "begin": '{"do":"begin"}'}
MEMBERS = {"type": "a text", "entry": "a text", "fields": "an object", "id": "a whole number from 1",
           "by": "a whole number", "ms": "a whole number", "max": "a whole number from 0", "from": "a whole number"}


def listed(names: Iterable[str]) -> str:
    return ", ".join(f"`{name}`" for name in names) or "none"


# ---- the line itself


def bad_json(line: bytes) -> str:
    """Where the reading stops."""
    try:
        text = line.decode("utf-8")
    except UnicodeDecodeError as error:
        return f"byte {error.start + 1} of the line is not UTF-8"
    reader = script.JsonReader(text)
    try:
        reader.whole()
    except (script.BadJson, IndexError):
        pass
    here = text[reader.place:reader.place + 12]
    what = f"`{here}` can not stand" if here else "the line ends too early"
    return f"column {reader.place + 1}: {what}; names and texts stand in `\"`, one object in a line, nothing after it"


def bad_command(line: bytes) -> str:
    """Which member is missing, too many, or has a wrong value."""
    reading = script.json_of(line)
    if not isinstance(reading, dict):
        return 'a line is one object, as {"do":"fire"}'
    members = dict(reading)
    word = members.pop("do", None)
    known = list(script.FORMS)
    if not isinstance(word, str) or word not in known:
        hint = close_to(word, known) if isinstance(word, str) else ""
        return (f"{'`do` is missing' if word is None else f'`{word}` is no command'}; "
                f"{hint or f'the commands are {listed(known)}'}")
    needed, allowed = script.FORMS[word]
    form = f"the form is {FORMS.get(word, word)}"
    if missing := sorted(needed - set(members)):
        return f"{listed(missing)} is missing; {form}"
    if further := sorted(set(members) - needed - allowed):
        return f"{listed(further)} is no member of `{word}`; {form}"
    wrong = next(name for name, value in members.items() if not script.MEMBERS[name](value))
    return f"`{wrong}` is to be {MEMBERS.get(wrong, 'something else')}; {form}"


# ---- what it names


def bad_fields(command: Any, w: World) -> str:
    kinds = w.program.types[command.type].fields
    further, missing = [n for n in command.fields if n not in kinds], [n for n in kinds if n not in command.fields]
    told = [f"`{command.type}` has no field "
            f"`{name}`{', ' + close_to(name, missing or list(kinds)) if close_to(name, list(kinds)) else ''}"
            for name in further]
    if isinstance(command, script.InsertLine) and missing:
        told.append(f"{listed(missing)} {'is' if len(missing) == 1 else 'are'} missing")
    return "; ".join(told) or f"`fields` names none of {listed(kinds)}"


def bad_value(command: Any, w: World) -> str:
    kinds = w.program.types[command.type].fields
    return "; ".join(f"`{name}` is {KINDS[str(kinds[name])]}, and not {shown_json(value)}"
                     for name, value in command.fields.items() if name in kinds and not has_kind(value, kinds[name]))


def shown_json(value: object) -> str:
    if isinstance(value, (bool, int, str)):
        text = shown_value(value)
        return text if len(text) < 60 else f"a text of {len(str(value).encode())} bytes (at most {TEXT_END})"
    if isinstance(value, script.Other):
        return other_json(value.written)
    return "an object" if isinstance(value, dict) else "a list"


def other_json(written: str) -> str:
    """A reading that is no value of ours, and why."""
    if written == "null":
        return "`null`: each fact has all its fields"
    shown = f"`{written}`" if len(written) < 40 else "a number"
    if re.fullmatch("-?[0-9]+", written):
        return f"{shown}, which is outside 64 bits" if written != "-0" else "`-0`: 0 has no sign"
    return f"{shown}: a whole number has no fraction and no exponent"


def absent(type_name: str, number: int, history: History) -> str:
    """What became of the fact."""
    told = history.facts.get(number)
    if told is None:
        return f"no fact has the number {number} yet"
    if told.fact.type != type_name:
        return f"#{number} is of `{told.fact.type}`"
    return (f"#{number} was retracted at line {told.gone}" if told.gone is not None
            else f"#{number} is not there at that moment")


def observers(type_name: str, history: History) -> str:
    """The rules because of which events of a type are not retracted."""
    found = [f'"{history.program.title(place)}", condition {k}' for place, rule in enumerate(history.program.rules)
             for k, c in enumerate(rule.conditions, start=1) if c.source.type == type_name
             and (not isinstance(c, Plain) or isinstance(c.source.window, LengthWindow))]
    return (f"`{type_name}` stands in a `not`, an `exists`, an accumulate or a window of length: "
            f"{'; '.join(dict.fromkeys(found))}")


def reference_fixed(command: Any, history: History) -> str:
    """What began the world, of an insert; of other lines that the facts stay as they are."""
    if not isinstance(command, script.InsertLine):
        return f"`{command.type}` is a reference type: its facts stay as they are"
    if history.begun_at == BEFORE:
        return (f"`{command.type}` is a reference type: its facts come before the world begins, and it began before "
                "the image")
    began = script.command_of(history.lines[history.begun_at - history.skipped - 1])
    by = "`begin`" if isinstance(began, script.BeginLine) else "the first event"
    return (f"`{command.type}` is a reference type: its facts come before the world begins, and it began at line "
            f"{history.begun_at}, by {by}")


# ---- times


def late(step: Insertion, w: World) -> str:
    """Which floor the event is below: that of the order, or that of the lateness."""
    start, _ = start_and_duration(step, w)
    last, behind = w.last_starts.get(step.entry, 0), w.clock - w.program.latenesses[step.entry]
    text = f"it starts at {moment(start)}, and `{step.entry}` takes events from {moment(floor_of(w, step.entry))} on"
    if w.promises.get(step.entry, 0) > max(last, behind):
        return f"{text}, as was promised"
    if last >= behind:
        return (f"{text}, where its last one started: events of one entry point come in the order of their starts, "
                "whatever the lateness")
    lateness = w.program.latenesses[step.entry]
    if lateness == 0:
        return f"{text}: the clock is {moment(w.clock)}, and `{step.entry}` has no @lateness" + told_when_over(step, w)
    return f"{text}: the clock is {moment(w.clock)}, and the lateness {lateness}"


def told_when_over(step: Insertion, w: World) -> str:
    """What an event that lasts needs, where it is told of at its end."""
    start, duration = start_and_duration(step, w)
    return (": an event that is told of when it is over starts before, and needs one" if duration > 0
            and start + duration <= w.clock else "")


def of_step(code: str, step: Any, history: History, w: World) -> str:
    """Why a world does not take a step."""
    if code == "Late":
        return late(step, w)
    if code == "Ahead":
        return (f"it starts at {moment(start_and_duration(step, w)[0])}, and the clock is {moment(w.clock)}: move the "
                "clock first, or insert it when it has come")
    if code == "BadDuration":
        return f"the duration is {start_and_duration(step, w)[1]}, and has to be 0 to 2^53"
    if code == "ClockBack":
        return f"the clock is {moment(w.clock)}, and would go to {moment(step.to)}"
    if code == "ClockEnd":
        return f"the clock would go to {step.to}, and its end is 2^53"
    if code == "PromiseBack":
        return (f"`{step.entry}` is promised from {moment(w.promises.get(step.entry, 0))} on, and would be from "
                f"{moment(step.start)}")
    if code == "PromiseEnd":
        return f"the promise is from {step.start} on, and the clock's end is 2^53"
    return absent(step.type, step.id, history)


def of_line(code: str, history: History) -> str:
    """Why a line of the script that is no `fire` is faulty."""
    line, w = history.line, history.before
    if code == "LineLong":
        return f"the line has {len(line)} bytes, and at most {script.LINE_END} are read"
    if code == "BadJson":
        return bad_json(line)
    if code == "BadCommand":
        return bad_command(line)
    command: Any = script.command_of(line)
    if code == "UnknownType":
        return (f"the rule file declares no `{command.type}`; "
                f"{close_to(command.type, list(w.program.types)) or listed(w.program.types)}")
    if code == "UnknownEntry":
        known = list(w.program.latenesses)
        return (f"no pattern and no declaration names `{command.entry}`; "
                f"{close_to(command.entry, known) or listed(known)}")
    if code == "EventFixed":
        return f"`{command.type}` is a type of events, which are never modified"
    if code == "EventObserved":
        return observers(command.type, history)
    if code == "ReferenceFixed":
        return reference_fixed(command, history)
    if code == "BadFields":
        return bad_fields(command, w)
    if code == "BadValue":
        return bad_value(command, w)
    return of_step(code, step_of(command, w), history, w)


def step_of(command: Any, w: World) -> Any:
    """The step that a command asks for, though the world may not take it."""
    if isinstance(command, script.InsertLine):
        return Insertion(command.type, command.entry or DEFAULT, command.fields)
    if isinstance(command, script.ModifyLine):
        return Modification(command.id, command.type, command.fields)
    if isinstance(command, script.RetractLine):
        return Retraction(command.id, command.type)
    if isinstance(command, script.PromiseLine):
        return Promise(command.entry or DEFAULT, command.start)
    return ClockMove(command.ms if isinstance(command, script.AtLine) else w.clock + command.by)


def of_action(found: FaultyAction, history: History) -> str:
    """Why an action is faulty."""
    if found.code == "Overflow":
        return "a whole number of an expression, or of a part of it, lies outside 64 bits"
    return of_step(found.code, found.step, history, found.world)


def told(history: History) -> Iterator[str]:
    """Each fault of the line, and why it is one."""
    number = history.number
    codes = [answer.split()[2] for answer in history.answers if answer.startswith(f"fault {number} ")]
    if not history.is_fire:
        yield from (f"fault {number} {code}: {of_line(code, history)}" for code in codes)
        return
    for found in faulty_actions(history):
        yield f"fault {number} {found.code}: action {found.place} of {found.firing}: {of_action(found, history)}"
