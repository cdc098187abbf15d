"""The HTML page of certificates: everything is inside it, it has no script, and texts are escaped."""

from __future__ import annotations

from html import escape
from itertools import groupby
from pathlib import Path
from string import Template

from ..reference.certificates.confirm import part_head, point_text, tail_of_part
from ..rulefile import kept
from .network import drawing, label_of
from .proofs import Edge, Part, Sheet, condition_words, edge_words, origins, tail_words, words

HERE = Path(__file__).resolve().parent


def code(edge: Edge) -> str:
    return f"<code>{point_text(edge[0])}-{point_text(edge[1])}&lt;={edge[2]}</code>"


def exact(milliseconds: int) -> str:
    """A time in words, with its milliseconds where these say more."""
    text, number = label_of(milliseconds)
    return f"{text} ({number})" if number else text


def name_of(part: Part) -> str:
    return f"p{part.rule + 1}-{part.i + 1}-{part.j + 1}"


# ---- one certificate


def step(edge: Edge, why: str) -> str:
    return f'<li>{code(edge)} {escape(edge_words(edge))}<small>{escape(why)}</small>'


def reckoning(sheet: Sheet, part: Part) -> str:
    """The sum, the tail and the life."""
    sums = " + ".join(words(edge[2]) for edge in part.edges).replace("+ −", "− ")
    rows = [("sum", (f"{escape(sums)} = " if len(part.edges) > 1 else "") + f"<b>{escape(exact(part.total))}</b>")]
    if part.cycle:
        rows.append(("so", "it is below 0: no times pass these tests, and condition "
                           f"{part.j + 1} asks for no {escape(sheet.condition(part, part.i).source.type)}"))
    else:
        tail, kind = tail_of_part(sheet.program, part) or 0, escape(sheet.condition(part, part.i).source.type)
        rest = "<strong>all of it is needed</strong>" if sheet.bounds(part) else "within it"
        rows.append(("tail", f"<b>{escape(exact(tail))}</b>, {escape(tail_words(sheet.program, part))}"))
        rows.append(("both", f"<b>{escape(exact(sheet.needs(part) or 0))}</b>"))
        rows.append(("life", f"of {kind} <b>{escape(exact(sheet.life(part)))}</b>: {rest}"))
    return "<dl>" + "".join(f"<dt>{name}<dd>{text}" for name, text in rows) + "</dl>"


def question(sheet: Sheet, part: Part) -> str:
    """What the certificate answers."""
    i, j = (escape(condition_words(sheet.condition(part, k))) for k in (part.i, part.j))
    if part.i == part.j:
        return f"How far behind the end of {part.i + 1} <code>{i}</code> may it start itself?"
    return f"How far behind the end of {part.i + 1} <code>{i}</code> may {part.j + 1} <code>{j}</code> start?"


def figure(sheet: Sheet, part: Part) -> str:
    came_from = origins(sheet.program, part)
    rest = [edge for edge in came_from if edge not in part.edges]
    below = (f"<details><summary>{len(rest)} other edge{'s' if len(rest) > 1 else ''}</summary><ul>"
             + "".join(step(edge, came_from[edge]) for edge in rest) + "</ul></details>") if rest else ""
    marked = " all" if sheet.bounds(part) else ""
    return (f'<figure id="{name_of(part)}" class="part{marked}"><figcaption>{question(sheet, part)}</figcaption>'
            f'<div class="drawn">{drawing(sheet, part)}</div><div class="read"><ol>'
            + "".join(step(edge, came_from[edge]) for edge in part.edges)
            + f"</ol>{reckoning(sheet, part)}{below}</div>"
            f'<p class="line"><code>{escape(sheet.line(part))}</code></p></figure>')


# ---- rules and types


def rule_section(sheet: Sheet, parts: list[Part]) -> str:
    title = sheet.program.title(parts[0].rule)
    return (f'<section><h2>rule {escape(title)}</h2><pre>{escape(sheet.texts.get(title, ""))}</pre><div class="parts">'
            + "".join(figure(sheet, part) for part in parts) + "</div></section>")


def life_row(sheet: Sheet, name: str) -> str:
    life = sheet.table[name]
    if life.kind == "explicit":
        return f"<tr><td>{escape(name)}<td>{escape(words(life.value))}<td>its @expires, from its start"
    if life.kind == "plain":
        return f"<tr><td>{escape(name)}<td>–<td>a plain fact stays until it is retracted"
    reasons = kept.reasons(sheet.program, name)
    told = [f'rule {escape(sheet.program.title(reason.rule))}, condition {reason.condition + 1}: '
            f'{escape(reason.why.replace("`", ""))}'
            for reason in reasons[:1]] or ["no rule asks for it"]
    if life.kind == "infinite":
        return f"<tr><td>{escape(name)}<td>for ever<td>{told[0]}"
    drawn = [part for part in sheet.parts if sheet.condition(part, part.i).source.type == name and sheet.bounds(part)]
    links = ", ".join(f'<a href="#{name_of(part)}">{escape(part_head(sheet.program, part).removeprefix("proof "))}</a>'
                      for part in drawn)
    return f"<tr><td>{escape(name)}<td>{escape(words(life.value))}<td>{links or told[0]}"


def summary(sheet: Sheet) -> str:
    count, rules = len(sheet.parts), len({part.rule for part in sheet.parts})
    if not count:
        return "no certificates: no life rests on temporal tests"
    return f"{count} certificate{'s' if count > 1 else ''} of {rules} rule{'s' if rules > 1 else ''}, confirmed"


def page(title: str, sheet: Sheet) -> str:
    sections = [rule_section(sheet, list(parts)) for _, parts in groupby(sheet.parts, key=lambda part: part.rule)]
    return Template((HERE / "page.html").read_text(encoding="utf-8")).substitute(
        title=escape(title), summary=summary(sheet), style=(HERE / "page.css").read_text(encoding="utf-8"),
        lives="\n".join(life_row(sheet, name) for name in sheet.table), sections="\n".join(sections))
