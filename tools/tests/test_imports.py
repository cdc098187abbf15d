"""Imports of proofs and specs: laid out crate by crate, with each name that they had."""

import unittest

import support  # noqa: F401  (it tells Python where the packages are)

from sozhipen_tools.imports import COLUMNS, LIST, laid_out, names_of

SHORT = """-- Two crates.
use Rattle.std.specs.Prelude.{◌≡◌, ap}
use Rattle.fx_base.specs.Kinds.{Kind}
use Rattle.std.proofs.Common.{refl}

pub two : Kind
"""


def imported(text: str) -> list[str]:
    """The names that a text imports, each with its module."""
    found = [LIST.fullmatch(line) for line in text.split("\n")]
    return sorted(".".join((*name.module, name.name)) for list_ in found if list_
                  for name in names_of(tuple(list_["path"].split(".")), list_["items"]))


class Layout(unittest.TestCase):
    def test_a_list_for_each_crate(self) -> None:
        wanted = ("-- Two crates.\nuse Rattle.std.{specs.Prelude.{◌≡◌, ap}, proofs.Common.{refl}}\n"
                  "use Rattle.fx_base.specs.Kinds.{Kind}\n\npub two : Kind\n")
        self.assertEqual(laid_out(SHORT), wanted)
        self.assertEqual(laid_out(wanted), wanted)

    def test_one_list_for_all_crates(self) -> None:
        self.assertEqual(laid_out(SHORT, one=True).split("\n")[1],
                         "use Rattle.{std.{specs.Prelude.{◌≡◌, ap}, proofs.Common.{refl}}, fx_base.specs.Kinds.{Kind}}")

    def test_lines_have_at_most_so_many_columns_and_no_name_is_lost(self) -> None:
        text = "\n".join(f"use Rattle.std.proofs.{part}.{{{part}_{k}}}" for k in range(40) for part in ("Left", "Right"))
        for one in (False, True):
            lines = laid_out(text, one)
            self.assertTrue(all(len(line) <= COLUMNS for line in lines.split("\n")))
            self.assertEqual(imported(lines), imported(text))

    def test_what_is_passed_on_stands_apart(self) -> None:
        text = "pub use a.b.{x}\nuse a.b.{y}\npub use a.b.{z}"
        self.assertEqual(laid_out(text), "pub use a.b.{x, z}\nuse a.b.{y}")

    def test_other_lines_stay(self) -> None:
        text = "use Rattle.fx_base.proofs.Given as goal\n\none = two {x, y}\nuse Rattle.fx_base.proofs.Common"
        self.assertEqual(laid_out(text), text)


if __name__ == "__main__":
    unittest.main()
