"""Certificates as they are drawn."""

import re
import unittest
from html.parser import HTMLParser
from pathlib import Path

from support import TOP

from sozhipen_tools.certificates.draw import title_of
from sozhipen_tools.certificates.network import BAND, END, START, lanes_of, rows_of
from sozhipen_tools.certificates.page import page
from sozhipen_tools.certificates.proofs import (Sheet, Unfit, condition_words, edge_words, edges_of_part, origins,
                                                sheet_of, tail_words, words)
from sozhipen_tools.reference.certificates.certify import certify
from sozhipen_tools.reference.certificates.confirm import Part
from sozhipen_tools.reference.comparers.try_proofs import program_of_seed

EXAMPLES = TOP / "examples"

FIRE = b"""declare Smoke @role( event ) end
declare Heat @role( event ) end
declare Bell @role( event ) end
rule "fire" when
  $s : Smoke()
  $h : Heat( this after[0s,10s] $s )
  Bell( this after[0s,20s] $h )
then end
"""

NEVER = b"""declare Ring @role( event ) @duration( long_ ) long_ : long end
rule "<b>&" when $r : Ring() not( Ring( this after[1s,2s] $r, this before[1s,2s] $r ) ) then end
"""

CLOSED = {"svg", "g", "figure", "section", "div", "pre", "code", "details", "text", "a", "dl", "ol", "ul", "style",
          "body"}


class Tags(HTMLParser):
    """Whether each tag that has to be closed is, in its place."""

    def __init__(self, text: str):
        super().__init__()
        self.open: list[str] = []
        self.counts: dict[str, int] = {}
        self.feed(text)

    def handle_starttag(self, tag: str, attrs: list) -> None:
        self.counts[tag] = self.counts.get(tag, 0) + 1
        if tag in CLOSED:
            self.open.append(tag)

    def handle_endtag(self, tag: str) -> None:
        if tag in self.open:
            assert self.open.pop() == tag, tag


def plain(text: str) -> str:
    return text.replace("\u00a0", " ")


def part_of(sheet: Sheet, i: int, j: int) -> Part:
    return next(part for part in sheet.parts if (part.i, part.j) == (i - 1, j - 1))


class Words(unittest.TestCase):
    def test_times(self) -> None:
        told = [plain(words(n)) for n in (0, 1, -1, 20_000, 5_400_500, -61_000, 90_000_000)]
        self.assertEqual(told, ["0", "1 ms", "−1 ms", "20 s", "1 h 30 min 500 ms", "−1 min 1 s", "1 d 1 h"])

    def test_edges(self) -> None:
        told = [plain(edge_words(((2, "s"), (1, "e"), bound))) for bound in (20_000, 0, -1)]
        self.assertEqual(told, ["the start of 3 is at most 20 s behind the end of 2",
                                "the start of 3 is not behind the end of 2",
                                "the start of 3 is at least 1 ms before the end of 2"])

    def test_conditions(self) -> None:
        sheet = sheet_of((EXAMPLES / "desks" / "bus.drl").read_bytes())
        self.assertEqual([condition_words(c) for c in sheet.program.rules[0].conditions],
                         ["$a : Arrival", "Stop", "$b : Arrival", "not( Arrival )"])

    def test_tails(self) -> None:
        """What is the greatest is told."""
        def told(more: str) -> str:
            sheet = sheet_of(f"""declare A @role( event ) @expires( 1h ) end declare B @role( event ) end
                             declare entry-point "x" @lateness( 2h ) end
                             rule r when $b : B() A( this after[0s,1s] $b ) {more} then end""".encode())
            return tail_words(sheet.program, part_of(sheet, 1, 2))

        self.assertEqual([told(more) for more in ("", "over window:time( 90m )",
                                                  'over window:time( 90m ) from entry-point "x"')],
                         ["the @expires of A", "its window of time", 'the @lateness of "x"'])
        self.assertEqual(tail_words(sheet_of(FIRE).program, part_of(sheet_of(FIRE), 1, 1)), "it comes in at once")

    def test_where_edges_come_from(self) -> None:
        """Each edge of a network has what it comes from, of random programs too."""
        for seed in range(30):
            program = program_of_seed(seed)
            for part in certify(program) if program else []:
                self.assertEqual(set(origins(program, part)), set(edges_of_part(program, part)))
        found = origins(sheet_of(FIRE).program, part_of(sheet_of(FIRE), 1, 3))
        self.assertEqual(found[(2, "s"), (1, "e"), 20_000], "3: this after[0s,20s] $h")
        self.assertEqual(found[(1, "e"), (1, "s"), 0], "an event of Heat ends where it starts")


class Drawings(unittest.TestCase):
    def test_rows(self) -> None:
        sheet = sheet_of(FIRE)
        rows = rows_of(edges_of_part(sheet.program, part_of(sheet, 1, 3)))
        self.assertEqual(rows, {(k, point): k * BAND + height for k in range(3)
                                for point, height in (("s", START), ("e", END))})

    def test_lanes(self) -> None:
        """Edges that run beside one another are apart, and those that follow one another are not."""
        rows = {(k, point): 2 * k + (point == "e") for k in range(3) for point in "se"}
        path = (((2, "s"), (1, "e"), 1), ((1, "e"), (1, "s"), 0), ((1, "s"), (0, "e"), 1))
        self.assertEqual({lane.lane for lane in lanes_of(path, rows)}, {0})
        self.assertEqual([lane.lane for lane in lanes_of((((0, "s"), (2, "e"), 1), ((2, "e"), (2, "s"), 0)), rows)],
                         [0, 1])

    def test_a_path(self) -> None:
        """Its three edges are thick, with their bounds, and the other seven are thin."""
        text = page("fire", sheet_of(FIRE))
        figure = re.search(r'<figure id="p1-1-3" class="part all">.*?</figure>', text, re.S)[0]
        self.assertEqual((figure.count('class="path"'), figure.count('class="other"'), figure.count('class="point')),
                         (3, 7, 6))
        for told in (">20 s<", ">20000 ms<", "20 s + 0 + 10 s = <b>30 s (30000 ms)</b>",
                     "of Smoke <b>30 s (30000 ms)</b>: <strong>all of it is needed",
                     "proof &quot;fire&quot; 1 3 s3-e2&lt;=20000 e2-s2&lt;=0 s2-e1&lt;=10000 sum 30000 tail 0"):
            self.assertIn(told, plain(figure))
        self.assertIn('<tr><td>Smoke<td>30 s<td><a href="#p1-1-3">&quot;fire&quot; 1 3</a>', plain(text))

    def test_a_cycle(self) -> None:
        text = plain(page("never", sheet_of(NEVER)))
        figure = re.search(r'<figure id="p1-1-2".*?</figure>', text, re.S)[0]
        self.assertIn('<svg class="network cycle"', figure)
        self.assertIn("= <b>−2 s (−2000 ms)</b>", figure)
        self.assertIn("no times pass these tests", figure)
        self.assertNotIn("<dt>tail", figure)


class Pages(unittest.TestCase):
    def test_all_examples(self) -> None:
        for path in sorted(EXAMPLES.rglob("*.drl")):
            with self.subTest(path.name):
                sheet = sheet_of(path.read_bytes())
                tags = Tags(page(path.stem, sheet))
                self.assertEqual((tags.open, tags.counts.get("figure", 0)), ([], len(sheet.parts)))

    def test_a_page_stands_by_itself(self) -> None:
        text = page("<u>", sheet_of(NEVER))
        for raw in ("<b>&", "<u>", "<script", "src=", "http:", "https:", "@import"):
            self.assertNotIn(raw, text)

    def test_links(self) -> None:
        text = page("bus", sheet_of((EXAMPLES / "desks" / "bus.drl").read_bytes()))
        links = set(re.findall('href="#([^"]+)"', text))
        self.assertTrue(links and links <= set(re.findall('id="([^"]+)"', text)))

    def test_titles(self) -> None:
        self.assertEqual((title_of(Path("/desks/bus/rules.drl")), title_of(EXAMPLES / "smoke.drl")), ("bus", "smoke"))

    def test_nothing_to_prove(self) -> None:
        self.assertIn("no certificates", page("dear", sheet_of((EXAMPLES / "dear.drl").read_bytes())))


class Outputs(unittest.TestCase):
    LINES = [sheet_of(FIRE).line(part) for part in sheet_of(FIRE).parts] + ["confirmed"]

    def test_of_the_program(self) -> None:
        """Certificates that were printed are drawn as they are: another path as good, too."""
        other = [self.LINES[0].replace("s1-e1<=0", "s1-e1<=0 e1-s1<=0 s1-e1<=0")] + self.LINES[1:]
        for lines in (self.LINES, other):
            sheet = sheet_of(FIRE, "".join(line + "\n" for line in lines).encode())
            self.assertEqual([sheet.line(part) for part in sheet.parts], lines[:-1])
            page("fire", sheet)

    def test_wrong_ones(self) -> None:
        wrong = {"lines, where": self.LINES[1:],
                 "line 3": [line.replace("s3-e2<=20000", "s3-e2<=19999") for line in self.LINES],
                 "no good certificate": [line.replace("s2-e1<=10000 sum 10000", "s2-e1<=9999 sum 9999")
                                         for line in self.LINES],
                 "9 certificates": self.LINES[:-1] + ["not confirmed"]}
        for told, lines in wrong.items():
            with self.assertRaisesRegex(Unfit, told):
                sheet_of(FIRE, "\n".join(lines).encode())
        with self.assertRaisesRegex(Unfit, "not accepted"):
            sheet_of(b"rule")


if __name__ == "__main__":
    unittest.main()
