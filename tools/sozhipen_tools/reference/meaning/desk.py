"""A run without an end: each line is closed by an answer of its own, the limit of firings is that of each fire command,
and lines ask for images, kept facts and counts."""

from __future__ import annotations

from collections import Counter
from dataclasses import dataclass
from typing import Callable, Optional

from .answers import Answer, Counted, Done, FireDone, Kept, LimitOfLine, Saved, object_of
from .keeping import kept_facts
from .run import Fault, Run
from .script import BadCommand, CountsLine, FactsLine, SaveLine, desk_command_of
from .worlds import floor_of, pending

# Puts the image of a run into the file that is named for it.
Save = Callable[[Run], None]


@dataclass
class Desk(Run):
    """A run whose answers are written one by one. Where no file is named for its image it has no `save`."""
    save: Optional[Save] = None
    write: Callable[[Answer, int], Optional[str]] = object_of

    def written(self, answer: Answer, number: int) -> Optional[str]:
        return self.write(answer, number)

    def line(self, number: int, line: bytes) -> None:
        """What one line of the script does; what closes it comes last."""
        self.closing: Answer = Done()
        super().line(number, line)
        self.tell(number, self.closing)

    def obey(self, number: int, line: bytes) -> None:
        command = desk_command_of(line)
        if isinstance(command, SaveLine):
            if self.save is None:
                raise BadCommand
            self.save(self)
            self.tell(number, Saved())
        elif isinstance(command, FactsLine):
            self.tell(number, *self.kept(command.type))
        elif isinstance(command, CountsLine):
            self.tell(number, self.counted())
        else:
            self.command(number, command)

    def fire(self, number: int, most: Optional[int]) -> None:
        """Each command may fire as often as the limit says."""
        before, self.left = self.firings, self.limit
        super().fire(number, most)
        self.closing = FireDone(self.firings - before, bool(pending(self.world)))

    def meet_limit(self, number: int) -> None:
        """What is pending at the limit waits for the next command."""
        self.tell(number, LimitOfLine(self.limit))

    def kept(self, type_name: Optional[str]) -> list[Kept]:
        """The kept facts of a type, or of all, in the order of their tags: as they came, or were modified last."""
        if type_name is not None and type_name not in self.world.program.types:
            raise Fault("UnknownType")
        facts = [f for f in kept_facts(self.world) if type_name in (None, f.type)]
        return [Kept(f) for f in sorted(facts, key=lambda f: f.tag)]

    def counted(self) -> Counted:
        w, kept = self.world, Counter(f.type for f in kept_facts(self.world))
        return Counted(w.clock, {name: kept[name] for name in w.program.types}, self.firings,
                       {entry: floor_of(w, entry) for entry in w.program.latenesses}, len(pending(w)))
