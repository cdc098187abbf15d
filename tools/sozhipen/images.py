"""Images from which a program goes on, as a client looks into them."""

from __future__ import annotations

import io
from pathlib import Path
from typing import Optional

from sozhipen_tools.reference.images.image import BadImage, Head, Image, decode, head_in
from sozhipen_tools.reference.images.show import show

from .rules import Rules


def head_of(path: Path) -> Optional[Head]:
    """How far the run of the image in a file was, None where there is none: then the program says so itself."""
    try:
        with open(path, "rb") as file:
            return head_in(file)
    except (OSError, BadImage):
        return None


def head_in_bytes(image: bytes) -> Optional[Head]:
    """The same of an image in memory."""
    try:
        return head_in(io.BytesIO(image))
    except BadImage:
        return None


def image_of(path: Path, rules: Optional[Rules]) -> Optional[Image]:
    """The image in a file, None where it is none of these rules: then the program says so itself."""
    try:
        image = decode(path.read_bytes())
    except (OSError, BadImage):
        return None
    is_of_them = rules is not None and image.run.rules == show(rules.world.program.written)
    return image if is_of_them else None
