"""The trees of a rule file: what the reader makes and all other modules look at."""

from __future__ import annotations

from dataclasses import dataclass
from functools import cached_property
from typing import Optional, Union

# Values of fields and literals: a whole number, a truth value or a text. In Python True equals 1, so kinds are always
# looked at by `kind_of_value` before two values are compared.
Value = Union[int, bool, str]

INT, BOOL, TEXT = "Int", "Bool", "Text"


def kind_of_value(value: Value) -> str:
    """The kind of a value."""
    if isinstance(value, bool):
        return BOOL
    return INT if isinstance(value, int) else TEXT


# ---- operands and expressions


@dataclass(frozen=True)
class Literal:
    value: Value


@dataclass(frozen=True)
class Variable:
    """A variable that stands for a value, `$x`; its name is kept without the `$`."""
    name: str


@dataclass(frozen=True)
class FieldOf:
    """A field of the fact that a variable names, `$a.price`."""
    variable: str
    field: str


@dataclass(frozen=True)
class Own:
    """A field of the tested fact itself."""
    field: str


Operand = Union[Literal, Variable, FieldOf, Own]


@dataclass(frozen=True)
class Negate:
    inner: "Expr"


@dataclass(frozen=True)
class Binary:
    """`+`, `-` or `*` between two expressions."""
    sign: str
    left: "Expr"
    right: "Expr"


Expr = Union[Literal, Variable, FieldOf, Negate, Binary]


# ---- conditions


@dataclass(frozen=True)
class Compare:
    """`price > 10`: a field of the tested fact, a relation and an operand."""
    field: str
    relation: str
    operand: Operand


@dataclass(frozen=True)
class OneOf:
    """`price in ( 10, 20 )`."""
    field: str
    operands: tuple[Operand, ...]


def operands_of(c: "Comparison") -> tuple[Operand, ...]:
    return c.operands if isinstance(c, OneOf) else (c.operand,)


Comparison = Union[Compare, OneOf]


@dataclass(frozen=True)
class Bind:
    """`$x : price`."""
    variable: str
    field: str


@dataclass(frozen=True)
class Temporal:
    """`this after[0s,10s] $e`; parameters in milliseconds."""
    operator: str
    parameters: tuple[int, ...]
    other: str


@dataclass(frozen=True)
class AnyOf:
    """Groups of comparisons parted by `||`; within a group `&&`."""
    groups: tuple[tuple[Comparison, ...], ...]

    @property
    def names_variable(self) -> bool:
        return any(isinstance(o, (Variable, FieldOf)) for group in self.groups for c in group for o in operands_of(c))


Part = Union[Bind, Temporal, AnyOf]


@dataclass(frozen=True)
class TimeWindow:
    length: int


@dataclass(frozen=True)
class LengthWindow:
    count: int


Window = Union[TimeWindow, LengthWindow]


@dataclass(frozen=True)
class Source:
    """`$a : Type( parts ) over window:time( 1s ) from entry-point "X"`."""
    variable: Optional[str]
    type: str
    parts: tuple[Part, ...]
    window: Optional[Window]
    entry: Optional[str]

    @cached_property
    def constant_tests(self) -> list[AnyOf]:
        """The tests that name no variable."""
        return [p for p in self.parts if isinstance(p, AnyOf) and not p.names_variable]

    @cached_property
    def joined_tests(self) -> list[AnyOf]:
        """The tests that name a variable."""
        return [p for p in self.parts if isinstance(p, AnyOf) and p.names_variable]

    @cached_property
    def temporal_tests(self) -> list[Temporal]:
        return [p for p in self.parts if isinstance(p, Temporal)]

    @cached_property
    def binds(self) -> list[Bind]:
        return [p for p in self.parts if isinstance(p, Bind)]


@dataclass(frozen=True)
class Plain:
    source: Source


@dataclass(frozen=True)
class Negated:
    source: Source


@dataclass(frozen=True)
class Existing:
    source: Source


@dataclass(frozen=True)
class Folded:
    """An accumulate; each result test is a relation with its operand."""
    result: Optional[str]
    source: Source
    function: str
    argument: str
    tests: tuple[tuple[str, Operand], ...]


@dataclass(frozen=True)
class Alternatives:
    """`( A() or B() C() )`: the conditions of each choice. It stands in no rule that is written out."""
    choices: tuple[tuple["WrittenCondition", ...], ...]


# Those of a rule that is written out, and those of a rule as it was read.
Condition = Union[Plain, Negated, Existing, Folded]
WrittenCondition = Union[Condition, Alternatives]


# ---- actions


@dataclass(frozen=True)
class Insert:
    type: str
    values: tuple[Expr, ...]


@dataclass(frozen=True)
class Modify:
    variable: str
    sets: tuple[tuple[str, Expr], ...]


@dataclass(frozen=True)
class Retract:
    variable: str


Action = Union[Insert, Modify, Retract]


# ---- items


@dataclass(frozen=True)
class Role:
    event: bool


@dataclass(frozen=True)
class Timestamp:
    field: str


@dataclass(frozen=True)
class Duration:
    field: str


@dataclass(frozen=True)
class Expires:
    offset: int


@dataclass(frozen=True)
class Reference:
    """`@reference`: the facts of the type are there before any event, and stay as they are."""


Annotation = Union[Role, Timestamp, Duration, Expires, Reference]


@dataclass(frozen=True)
class Salience:
    value: int


@dataclass(frozen=True)
class DialectAttribute:
    text: str


Attribute = Union[Salience, DialectAttribute]


@dataclass(frozen=True)
class Package:
    path: tuple[str, ...]


@dataclass(frozen=True)
class Import:
    path: tuple[str, ...]
    star: bool


@dataclass(frozen=True)
class Dialect:
    text: str


@dataclass(frozen=True)
class TypeDeclaration:
    """A type; each field is its name and its kind word. One that is written out has no parent."""
    name: str
    annotations: tuple[Annotation, ...]
    fields: tuple[tuple[str, str], ...]
    parent: Optional[str] = None


@dataclass(frozen=True)
class EntryDeclaration:
    name: str
    lateness: Optional[int]


@dataclass(frozen=True)
class Rule:
    name: str
    attributes: tuple[Attribute, ...]
    conditions: tuple[Condition, ...]
    actions: tuple[Action, ...]


Body = Union[Package, Import, Dialect, TypeDeclaration, EntryDeclaration, Rule]


@dataclass(frozen=True)
class Item:
    """An item with the line of its first token."""
    line: int
    body: Body
