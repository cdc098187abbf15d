"""The HTML page of a picture: everything is inside it, and texts are escaped."""

from __future__ import annotations

import json
from html import escape
from pathlib import Path
from string import Template

from .clock import Clock
from .marks import Picture
from .recording import Printed, Recording

HERE = Path(__file__).resolve().parent
# What a promise looks like, where there is one.
PROMISE = ('\n    <li><svg width="30" height="16"><path class="promise" d="M3 14v-12l8 4l-8 4"/>'
           '<path class="tail" d="M3 14h24m0-4v8"/></svg> promise')


def part(name: str) -> str:
    return (HERE / name).read_text(encoding="utf-8")


def json_inside_html(data: dict) -> str:
    """JSON that no HTML reader takes for a mark of its own."""
    text = json.dumps(data, ensure_ascii=False, separators=(",", ":"))
    return text.replace("&", "\\u0026").replace("<", "\\u003c").replace(">", "\\u003e")


def row(printed: Printed, clock: Clock) -> str:
    sort = printed.text.partition(" ")[0]
    return f'<tr class="{escape(sort)}"><td>{clock.text(printed.clock)}<td>{printed.line}<td>{escape(printed.text)}'


def counted(count: int, one: str, many: str) -> str:
    return f"{count} {one if count == 1 else many}"


def summary(recording: Recording, clock: Clock) -> str:
    counts = [counted(len(recording.lives), "fact or event", "facts and events"),
              counted(len(recording.firings), "firing", "firings"), counted(len(recording.faults), "fault", "faults")]
    return (", ".join(counts)
            + f"; the clock ends at {clock.text(recording.end)} {clock.unit()}")


def title_of(rules: Path) -> str:
    """The name of a desk: that of its rule file, or of the folder where all rule files have one name."""
    return rules.resolve().parent.name if rules.stem in ("rules", "script") else rules.stem


def page(title: str, recording: Recording, picture: Picture) -> str:
    clock = picture.clock
    return Template(part("page.html")).substitute(
        title=escape(title), summary=escape(summary(recording, clock)), unit=clock.unit(), style=part("page.css"),
                                                  script=part("page.js"),
        promise=PROMISE if recording.promises else "",
        data=json_inside_html(picture.data()), rows="\n".join(row(printed, clock) for printed in recording.printed))
