"""The checks of documents, over a small tree and over this one."""

import re
import tempfile
import unittest
from pathlib import Path

from sozhipen_tools.documents.check import LIMITS, found_in, long_sentences
from sozhipen_tools.documents.doors import door_faults
from sozhipen_tools.documents.figures import (clause_faults, edit_faults, example_faults, figure_faults, figures,
                                              number_of)
from sozhipen_tools.documents.graph import edges_of, graph_faults
from sozhipen_tools.documents.houses import above, house_faults, houses, proof_lines
from sozhipen_tools.documents.links import Links
from sozhipen_tools.documents.map import FROM, HEADS, TO, brief, made, map_faults, own_words, table
from sozhipen_tools.documents.names import Names
from sozhipen_tools.documents.pages import Page, anchor_of, pages_of, sentences_of
from sozhipen_tools.documents.tree import Tree

FILES = {
    "crates.txt": "# NAME: what it uses\nbase:\nlow: base memchr\nhigh: low base\n",
    "crates/base/src/lib.rt": "//! Values: what all share.\n//! It assumes nothing.\npub mod item;\n",
    "crates/base/src/item.rt": "pub struct Item {\n    pub price: u64,\n}\n",
    "crates/low/src/lib.rt": "//! The store of `Item`.\n\npub fn put(x: u64) -> u64\n    ensures kept { result ≡ x "
         "}\n{ x }\n",
    "crates/low/specs/Kept.antt": "IsKept : Type 0\n",
    "crates/low/must-fail/drops_it.edit": "file: src/lib.rt\n",
    "crates/sozhipen/src/lib.rt": "//! The call.\npub fn run()\n    ensures exact { x }\n    ensures front { x }\n{}\n",
    "crates/high/src/lib.rt": "//! The top, see docs/MAP.md (*Gone*).\npub enum Code {\n    Late,\n}\n",
    "crates/cases/stdin": "=== 1 one\n=== end\n=== 2 two\n=== end\n",
    "crates/cases/stdout": "=== each script: 18 calls, status 5, prefixes\n=== each out: 3 calls, status 6, prefixes\n",
    "wrong-bodies/low/other.edit": "file: src/lib.rt\n",
    "tools/run": "", "tools/sozhipen_tools/there/now.py": "",
    "examples/a.drl": "", "examples/a.jsonl": "",
    "docs/MAP.md": "# Map\n\n## The graph\n\n```\nbase <- low <- high\n```\n\n## The store\n",
}


class Small(unittest.TestCase):
    """A tree of three crates."""

    def setUp(self) -> None:
        folder = tempfile.TemporaryDirectory()
        self.addCleanup(folder.cleanup)
        for path, text in FILES.items():
            file = Path(folder.name, path)
            file.parent.mkdir(parents=True, exist_ok=True)
            file.write_text(text, encoding="utf-8")
        self.tree = Tree(Path(folder.name))

    def named(self, text: str) -> list[str]:
        return [fault for _, fault in Names(self.tree).faults(Page("docs/X.md", text))]

    def linked(self, text: str) -> list[str]:
        return [fault for _, fault in Links(self.tree).faults(Page("docs/X.md", text))]

    def test_names_that_are_there(self) -> None:
        text = ("`low/specs/Kept.antt`, `crates/low`, `low::put: kept`, `Code::Late`, `base::item`, `Item`; `IsKept` "
                "in `Kept.antt`, `NAME.edit`, "
                "`crates/high/out/high`, `./crates.txt`, `./crates/low`, `std::vec`, `low/specs/*.antt`\n\n`low`: its "
                "`src/lib.rt` and `Kept.antt` (`IsKept`)")
        self.assertEqual(self.named(text), [])

    def test_names_that_are_not_there(self) -> None:
        self.assertEqual(self.named("`low/specs/Lost.antt`"), ["`low/specs/Lost.antt`: no such file or folder"])
        self.assertEqual(self.named("`base` has `Kept.antt`"),
                         ["`Kept.antt`: no such file in the crates that are named beside it"])
        self.assertEqual(self.named("`low::take`"), ["`low::take`: the crate low has no take"])
        self.assertEqual(self.named("`low::put: kept, lost`"), ["`low::put: kept, lost`: it has no clause lost"])
        self.assertEqual(self.named("`Code::Early`"), ["`Code::Early`: no crate has it"])
        self.assertEqual(self.named("`IsLost` in `low/specs/Kept.antt`"),
                         ["`IsLost`: it is not in `low/specs/Kept.antt`"])
        self.assertEqual(self.named("`low/specs/Kept.antt` (`IsLost`)"),
                         ["`IsLost`: it is not in `low/specs/Kept.antt`"])

    def test_words_of_code(self) -> None:
        unknown = Names(self.tree).unknown(Page("docs/X.md", "`IsKept` and `drops_it`, `is_lost` and `plain`"))
        self.assertEqual([fault for _, fault in unknown], ["`is_lost`: no crate and no tool has this name"])

    def test_links(self) -> None:
        there = ("[the map](MAP.md#the-store), docs/MAP.md (*The graph*, *The store*), crates/low, "
                 "[out](https://example.org/x)")
        self.assertEqual(self.linked(there), [])
        self.assertEqual(self.linked("[x](GONE.md)"), ["link GONE.md: no such file"])
        self.assertEqual(self.linked("[x](MAP.md#gone)"), ["link MAP.md#gone: no such anchor"])
        self.assertEqual(self.linked("docs/MAP.md, *Gone*"), ["docs/MAP.md: it has no section *Gone*"])
        self.assertEqual(sorted(set(self.linked("see docs/GONE.md"))),
                         ["docs/GONE.md: no such file or folder", "docs/GONE.md: no such page"])
        self.assertEqual(self.linked("```\npython3 tools/gone.py\n```"), ["tools/gone.py: no such file or folder"])
        self.assertEqual(self.linked("`python3 tools/gone.py x`"), ["tools/gone.py: no such file or folder"])
        self.assertEqual(self.linked("`tools/run there.now x`"), [])
        self.assertEqual(self.linked("`tools/run gone x`"), ["tools/run gone: no such tool"])

    def test_sources_point_to_sections(self) -> None:
        self.assertEqual(list(Links(self.tree).faults_of_sources()),
                         [("crates/high/src/lib.rt", 1, "docs/MAP.md: it has no section *Gone*")])

    def test_figures(self) -> None:
        page = Page("docs/X.md",
                    "1 must-fail edits, two must-fail edits, 3 edits behind the gate, 21 failing calls of `cases`")
        self.assertEqual([fault for _, fault in figure_faults(page, figures(self.tree))],
                         ["two must-fail edits: there are 1", "3 edits behind the gate: there are 1"])

    def test_wrong_bodies_and_examples(self) -> None:
        page = Page("docs/CHANGING.md",
                    "## Wrong bodies\n\n| body | crate |\n|---|---|\n| drops | `low`: `keeps_it` |\n")
        self.assertEqual([fault for _, fault in edit_faults(self.tree, page)],
                         ["wrong body low/keeps_it: it is not in the gate",
                          "wrong body low/drops_it: the table has it not"])
        self.assertEqual(list(example_faults(self.tree)), ["examples/a.drl: what it prints is not recorded (.out)"])

    def test_clauses_of_the_call(self) -> None:
        self.assertEqual([fault
                          for _, fault in clause_faults(self.tree, Page("docs/PROVED.md", "it prints so (`exact`)"))],
                         ["`sozhipen::run: front`: no row has this clause"])

    def test_graph(self) -> None:
        self.assertEqual(list(edges_of("a, b <- c (+ d) <- e")), [("d", "c"), ("a", "c"), ("b", "c"), ("c", "e")])
        self.assertEqual(list(graph_faults(self.tree, Page("docs/MAP.md", FILES["docs/MAP.md"]))), [])
        houses = FILES["docs/MAP.md"].replace("base <- low <- high", "ground     base <- low\n\nupper      low <- high")
        self.assertEqual(list(graph_faults(self.tree, Page("docs/MAP.md", houses))), [])
        other = FILES["docs/MAP.md"].replace("base <- low <- high", "high <- low")
        self.assertEqual(list(graph_faults(self.tree, Page("docs/MAP.md", other))),
                         ["graph: low does not cite high", "graph: high cites low, which follows from no edge",
                          "graph: high cites base, which follows from no edge",
                          "graph: low cites base, which follows from no edge"])

    def test_map(self) -> None:
        rows = table(self.tree, own_words("# words\nhigh: the `top`\n"))
        self.assertEqual(rows.splitlines()[2:], ["| `base` | values |", "| `low` | the store of `Item` |",
                                                 "| `high` | the `top` |"])
        self.assertEqual(made(f"a\n{FROM}\nold\n{TO}\nb", "new"), f"a\n{FROM}\n\nnew\n\n{TO}\nb")
        self.assertEqual(map_faults(self.tree, "gone: x"),
                         ["heads.txt: there is no crate gone", "docs/MAP.md has not both marks of the table"])

    def test_limit(self) -> None:
        most = LIMITS["MAP"]
        page = Page("docs/MAP.md", "word " * (most + 1))
        faults = [fault for _, fault in found_in(page, self.tree, Names(self.tree), Links(self.tree), {})]
        self.assertIn(f"{most + 1:,} words, where {most:,} are the limit", faults)


HOUSES = {
    "crates.txt": "# --- ground: values\nbase: memchr\n\n# --- meaning: what matches\nmodel: base indexmap\n\n"
                  "# --- lives: how long\nlives: base model\n\n# --- language: files\nlexer: base\n\n"
                  "# --- tests and laws\nchecks: lexer lives\n",
    "crates/base/src/lib.rt": "//! Values.\nuse memchr::find;\n",
    "crates/model/src/lib.rt": "//! Programs.\nghost use Rattle.base.specs.Values.{Value};\nuse indexmap::IndexMap;\n",
    "crates/lives/src/lib.rt": "//! Lives.\nuse base::Value;\nuse model::Rule;\n",
    "crates/lives/proofs/All.antt": "a\nb\n",
    "crates/lexer/src/lib.rt": "//! Tokens.\nuse base::Value;\n",
    "crates/checks/src/lib.rt": "//! Tests.\nuse lives::life;\n",
    "crates/checks/proofs/All.antt": "use Rattle.{std.specs.Bool.{not}, lexer.specs.Tokens.{is_word}}\n",
}


class Houses(unittest.TestCase):
    """A tree of crates in houses."""

    def tree(self, **changed: str) -> Tree:
        folder = tempfile.TemporaryDirectory()
        self.addCleanup(folder.cleanup)
        text = HOUSES["crates.txt"]
        for name, cited in changed.items():
            text = re.sub(rf"^{name}:.*$", f"{name}: {cited}", text, flags=re.M)
        for path, content in {**HOUSES, "crates.txt": text}.items():
            file = Path(folder.name, path)
            file.parent.mkdir(parents=True, exist_ok=True)
            file.write_text(content, encoding="utf-8")
        return Tree(Path(folder.name))

    def test_each_stands_on_lower_ones(self) -> None:
        self.assertEqual(list(house_faults(self.tree())), [])

    def test_a_citation_that_goes_up(self) -> None:
        self.assertEqual(list(house_faults(self.tree(base="memchr lexer"))),
                         ["crates.txt: base (ground) cites lexer (language), which no crate of its house may",
                          "crates.txt: no file of base names lexer"])

    def test_a_library_that_no_file_names(self) -> None:
        self.assertEqual(list(house_faults(self.tree(lexer="base thiserror"))),
                         ["crates.txt: no file of lexer names thiserror"])

    def test_a_crate_in_no_house(self) -> None:
        tree = self.tree()
        path = tree.top / "crates.txt"
        path.write_text("base: memchr\n" + path.read_text(encoding="utf-8").replace("base: memchr\n", ""),
                        encoding="utf-8")
        self.assertEqual(list(house_faults(tree))[0], "crates.txt: base stands in no house")

    def test_what_a_change_costs(self) -> None:
        tree = self.tree()
        self.assertEqual(above(tree, "model"), ["lives", "checks"])
        self.assertEqual(sum(proof_lines(tree, name) for name in above(tree, "model")), 3)

    def test_rows_of_houses(self) -> None:
        rows = table(self.tree(), {"tests and laws": "tests"}).splitlines()
        self.assertEqual(rows[2:6], ["| **ground** | values |", "| `base` | values |",
                                     "| **meaning** | what matches |", "| `model` | programs |"])
        self.assertEqual(rows[-2:], ["| **tests and laws** | tests |", "| `checks` | tests |"])

    def test_this_tree(self) -> None:
        self.assertEqual(list(house_faults(Tree())), [])


DOORS = {
    "crates.txt": "# --- network: nodes\nmemory:\nnode: memory\nnet: memory node\n"
                  "# --- session: engines\nengine: net\n",
    "crates/memory/src/lib.rt": "pub struct Memory {\n    rows: Vec<u64>,\n    key: Key,\n    pub size: u64,\n}\n\n"
                                "pub struct Key {\n    field: u8,\n}\n",
    "crates/node/src/lib.rt": "pub struct Node {\n    memory: Memory,\n    next: Box<Memory>,\n}\n\nimpl Node {\n"
                              "    pub fn size(&self) -> u64\n        ensures { result ≡ self.now.memory.size }\n}\n",
    "crates/node/specs/Doors.antt": "pub key_of : Node → Key\nkey_of node = node.memory.key\n",
    "crates/net/src/lib.rt": "pub enum Place {\n    Of(Node),\n    Empty,\n}\n\n"
                             "pub struct Net {\n    memory: Own,\n}\n\npub struct Own {\n    key: Key,\n}\n",
    "crates/net/specs/Kept.antt": "pub record Shown : Type 0 where\n  pub node : Node\n  pub memory : Memory\n\n",
    "crates/engine/src/lib.rt": "pub struct Engine {\n    net: Net,\n}\n",
}


class Doors(unittest.TestCase):
    """A tree of crates with structs inside structs."""

    def found(self, path: str, text: str) -> list[str]:
        folder = tempfile.TemporaryDirectory()
        self.addCleanup(folder.cleanup)
        for name, content in {**DOORS, path: DOORS.get(path, "") + text}.items():
            file = Path(folder.name, name)
            file.parent.mkdir(parents=True, exist_ok=True)
            file.write_text(content, encoding="utf-8")
        return [str(fault) for fault in door_faults(Tree(Path(folder.name)))]

    def test_one_field_of_another_crate(self) -> None:
        self.assertEqual(self.found("crates/net/specs/Kept.antt", "keeps : (n : Node) → n.memory ≡ n.memory\n"), [])

    def test_two_fields_of_other_crates(self) -> None:
        told = "keeps : (m n : Node) → m.memory.key ≡ key_of n\n"
        self.assertEqual(self.found("crates/net/specs/Kept.antt", told),
                         ["crates/net/specs/Kept.antt:5: m.memory.key looks into memory of node::Node and key of "
                          "memory::Memory"])

    def test_through_a_box_in_a_contract(self) -> None:
        code = "\nfn put(n: &Node)\n    ensures { n.now.next.rows.items ≡ n.now.memory.size }\n{}\n"
        self.assertEqual(self.found("crates/net/src/lib.rt", code),
                         ["crates/net/src/lib.rt:15: n.now.next.rows.items looks into next of node::Node and rows of "
                          "memory::Memory"])

    def test_what_a_constructor_holds(self) -> None:
        told = "rows : Place → List ℕ\nrows (place.Of node) = node.memory.rows.items\nrows Empty = []\n"
        self.assertEqual(self.found("crates/net/specs/Rows.antt", told),
                         ["crates/net/specs/Rows.antt:2: node.memory.rows.items looks into memory of node::Node and "
                          "rows of memory::Memory"])

    def test_fields_of_that_name_elsewhere(self) -> None:
        told = ("-- m.memory.key\nuse Rattle.node.specs.memory.key.{a}\n"
                "keeps : (m : Net) (s : Shown) → m.memory.key ≡ s.memory.key\n")
        self.assertEqual(self.found("crates/net/specs/Keeps.antt", told), [])
        self.assertEqual(self.found("crates/net/proofs/Told.antt", "told = λ it. it.memory.key\n"), [])

    def test_an_unknown_name_that_can_be_read_in_one_way(self) -> None:
        self.assertEqual(self.found("crates/net/proofs/Told.antt", "told = λ it. it.next.rows.items\n"),
                         ["crates/net/proofs/Told.antt:1: it.next.rows.items looks into next and rows, private fields "
                          "of other crates"])

    def test_behind_a_field_of_the_same_crate(self) -> None:
        told = "told : (e : Engine) → e.net.memory.key ≡ e.net\n"
        self.assertEqual(self.found("crates/engine/specs/Told.antt", told),
                         ["crates/engine/specs/Told.antt:1: e.net.memory.key looks into memory of net::Net and key of "
                          "net::Own"])

    def test_networks_of_this_tree(self) -> None:
        home = houses(Tree().text("crates.txt"))
        crates = [name for name, house in home.items() if house in ("ground", "meaning", "network", "session")]
        self.assertEqual(list(map(str, door_faults(Tree(), crates))), [])


class Texts(unittest.TestCase):
    def test_sentences(self) -> None:
        self.assertEqual(sentences_of("- One `a. B` here. Two [words](x.md), 2.5 of it! **Three.** End"),
                         ["One Code here.", "Two words, 2.5 of it!", "Three.", "End"])
        page = Page("x.md", "| a | " + "word " * 41 + "|\n|---|---|\n\n```\n" + "word " * 50 + "\n```\n")
        self.assertEqual([(line, told[:8]) for _, line, told in long_sentences([page])], [(1, "41 words")])

    def test_anchors(self) -> None:
        self.assertEqual(anchor_of("What `a` does, *now*"), "what-a-does-now")
        self.assertEqual(Page("x.md", "# A\n\n# A\n\n# A\n").anchors, {"a", "a-1", "a-2"})

    def test_numbers(self) -> None:
        self.assertEqual([number_of("thirteen"), number_of("1,873")], [13, 1873])

    def test_heads(self) -> None:
        self.assertEqual(brief("Timers: keys that wait. More."), "timers")
        self.assertEqual(brief("JSON of `x`, and a `y`."), "JSON of `x`, and a `y`")


class Here(unittest.TestCase):
    """That the checks see this tree: no page is judged here, which is for check.py."""

    def test_tree(self) -> None:
        tree = Tree()
        self.assertEqual(set(tree.crates), set(tree.cites))
        self.assertTrue(all(crate.head for crate in tree.crates.values()))
        self.assertIn("exact", tree.crates["sozhipen"].clauses["run"])
        self.assertTrue(all(figures(tree).values()))

    def test_pages(self) -> None:
        self.assertIn("docs/MAP.md", [page.path for page in pages_of(Tree().top)])
        known = {*Tree().crates, *houses(Tree().text("crates.txt")).values()}
        self.assertEqual([name for name in own_words(HEADS.read_text(encoding="utf-8")) if name not in known], [])


if __name__ == "__main__":
    unittest.main()
