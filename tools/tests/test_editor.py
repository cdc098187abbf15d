"""The words that editors colour are those of the language."""

import json
import re
import shutil
import subprocess
import tempfile
import unittest
from pathlib import Path
from typing import get_args

from support import TOP

from sozhipen_tools.reference.meaning.reader import FUNCTIONS, RESERVED
from sozhipen_tools.reference.meaning.temporal import OPERATORS
from sozhipen_tools.reference.meaning.trees import Annotation

EDITOR = TOP / "tools" / "editor"
VIM = EDITOR / "vim"
SYNTAX = (VIM / "syntax" / "drl.vim").read_text()
GRAMMAR = json.loads((EDITOR / "drl" / "syntaxes" / "drl.tmLanguage.json").read_text())


def keywords(*groups: str) -> set:
    """The words of these groups of the Vim syntax."""
    return {word for group in groups for line in re.findall(rf"^syntax keyword {group} (.*)$", SYNTAX, re.M)
            for word in line.split()}


def alternatives(scope: str) -> set:
    """The words of this scope of the TextMate grammar."""
    matches = [pattern["match"] for pattern in GRAMMAR["patterns"] if pattern["name"] == scope]
    return {word for match in matches for group in re.findall(r"\\b\(([\w|]+)\)\\b", match)
            for word in group.split("|")}


class Words(unittest.TestCase):
    def test_reserved_words(self) -> None:
        self.assertEqual(keywords("drlReserved", "drlBoolean"), RESERVED)
        self.assertEqual(alternatives("keyword.control.drl") | alternatives("constant.language.drl"), RESERVED)

    def test_functions_and_operators(self) -> None:
        self.assertEqual((keywords("drlFunction"), keywords("drlOperator")), (set(FUNCTIONS), set(OPERATORS)))
        self.assertEqual((alternatives("support.function.drl"), alternatives("keyword.operator.word.drl")),
                         (set(FUNCTIONS), set(OPERATORS)))

    def test_annotations(self) -> None:
        """Those of types, as the classes of the trees have them, and that of entry points."""
        annotations = {sort.__name__.lower() for sort in get_args(Annotation)} | {"lateness"}
        self.assertEqual(set(re.search(r"^syntax match drlAnnotation /@\\\((.*)\\\)", SYNTAX, re.M)[1].split("\\|")),
                         annotations)
        found = next(pattern["match"] for pattern in GRAMMAR["patterns"] if pattern["name"] == "storage.modifier.drl")
        self.assertEqual(set(re.search(r"\(([\w|]+)\)", found)[1].split("|")), annotations)

    def test_the_extension_names_its_files(self) -> None:
        folder = EDITOR / "drl"
        parts = json.loads((folder / "package.json").read_text())["contributes"]
        self.assertEqual(GRAMMAR["scopeName"], parts["grammars"][0]["scopeName"])
        for name in (parts["grammars"][0]["path"], parts["languages"][0]["configuration"]):
            json.loads((folder / name).read_text())


@unittest.skipUnless(shutil.which("vim"), "Vim is not on this machine")
class InVim(unittest.TestCase):
    def vim(self, file: Path, *commands: str) -> str:
        with tempfile.TemporaryDirectory() as folder:
            told = Path(folder, "told")
            words = [f"set runtimepath+={VIM}", "filetype on", "syntax on", f"edit {file}", f"redir! > {told}",
                     *commands, "redir END", "qall!"]
            subprocess.run(["vim", "-es", "-u", "NONE", "-i", "NONE", "-n",
                            *(word for command in words for word in ("-c", command))],
                           stdin=subprocess.DEVNULL, capture_output=True, timeout=120)
            return told.read_text()

    def test_colours(self) -> None:
        file = Path(tempfile.mkdtemp()) / "r.drl"
        file.write_text('rule "r" when $a : A( this after[1s,2m] $b ) then end // not\n')
        places = [(1, "drlReserved"), (6, "drlText"), (15, "drlVariable"), (28, "drlOperator"), (34, "drlNumber"),
                  (59, "drlComment")]
        for column, group in places:
            told = self.vim(file, f"echo synIDattr(synID(1, {column}, 1), 'name')")
            with self.subTest(column):
                self.assertEqual(told.strip(), group)
        shutil.rmtree(file.parent)

    def test_mistakes(self) -> None:
        file = Path(tempfile.mkdtemp()) / "r.drl"
        file.write_text("declare A x : long end\nrule r when A( y > 3 ) then end\n")
        told = self.vim(file, "compiler drl", "silent make!", "echo map(getqflist(), 'v:val.lnum . \":\" . v:val.col')")
        self.assertIn("2:16", told)
        shutil.rmtree(file.parent)


if __name__ == "__main__":
    unittest.main()
