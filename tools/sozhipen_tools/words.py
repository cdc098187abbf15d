"""The words of a command line: what each tool takes them by."""

from __future__ import annotations

import argparse
import sys
from typing import Any, NoReturn


class Parser(argparse.ArgumentParser):
    """A parser that tells a word that it does not know in one line, with the status 2, also where others lack."""

    def parse_known_args(self, args: Any = None, namespace: Any = None) -> Any:
        words = list(sys.argv[1:] if args is None else args)
        for word in words[:words.index("--")] if "--" in words else words:
            if self.is_unknown(word):
                self.error(f"there is no {word}")
        return super().parse_known_args(args, namespace)

    def is_unknown(self, word: str) -> bool:
        """Whether it is written as a long option, and none begins so; with a blank inside it is a value."""
        name = word.partition("=")[0]
        return (word.startswith("--") and " " not in word
                and not any(option.startswith(name) for option in self._option_string_actions))

    def error(self, message: str) -> NoReturn:
        self.exit(2, f"{self.prog}: {message}; --help tells the words\n")
