"""What to write instead of forms that are none here: those of Drools, and the slips that are made most.

A form is known by the production in which the reader stopped and by the tokens from some place on: `W` is any word, `$`
any variable, `N` a number, `D` a time, `T` a text, anything else is itself.
"""

from __future__ import annotations

from difflib import get_close_matches
from typing import NamedTuple, Sequence

from ..reference.meaning import reader, temporal
from ..reference.meaning.tokens import Token

ONE_TOKEN = "a time is one token: `10s`"
WHOLE = "there are whole numbers alone: count in the smallest unit, as cents"
NO_SUMS = "there are sums in actions alone: keep the value in a field, or in a fact that another rule inserts"
NO_EVAL = "there is no `eval`: the test in the pattern, `price < $p`; sums and products are in actions alone"
NO_CALLS = "rules call nothing: the line of the firing is printed, and so is `new ..` of a fact that the rule inserts"
ONE_FUNCTION = "one function of one variable: a second `accumulate` for the next one"
ONE_SOURCE = "one pattern is the source: let a rule insert a fact for each pair, and take these"
ONE_PATTERN = "one pattern stands in `not` and `exists`"
FIELD_ALONE = "the field alone: `$a.price`, and not `$a.getPrice()`"
ARGUMENT = "the argument is a variable that the source binds: `accumulate( Draw( $x : cents ); $sum : sum( $x ) )`"
LEFT_OUT = "leave it out: a rule has `salience` and `dialect` alone"
ONCE = "leave it out: let a field say that it is done, `$a : Item( done == false )` and `modify( $a ) { done = true }`"
NEVER = "a `not` waits: `not( Never( this after[0s,10s] $t ) )` of an event type that never comes"
PHASE = "leave it out: a fact can say which phase it is, `Phase( number == 2 )`"
JOINED = "conditions stand one below the other, with no mark between"
CHOICE = "alternatives stand in parentheses, with `or` between: `( A() or B() )`"
INSERTED = "`insert( new Alert( $c ) );` alone, with no variable for it"
BY_KEY = "a window of length is not by key: docs/RECIPES.md, *The last n of a key*"
NO_PARTS = "a field has no methods and no parts: one more field, set where the script is made"
QUOTED_NAME = 'a name with a `-` stands in quotes: `entry-point "my-auths"`'
TEXT_TESTS = "there is none: a truth value, set where the script is made"
KNOWN = ("the annotations are `@role( event )`, `@timestamp( field )`, `@duration( field )`, `@expires( 10s )`, "
         "`@reference`")


class Form(NamedTuple):
    """`back` says how many tokens before the one that stopped the reader the pattern begins."""
    production: str
    back: int
    pattern: str
    instead: str


FORMS = [Form(*row) for row in (
    # an item
    ("item", 0, ";", "no `;` after `end`"),
    ("item", 0, "end", "one `end` too many, or what it should end is missing"),
    ("item", 0, "global", "a fact of settings: `Settings( $limit : limit )`"),
    ("item", 0, "query", "a rule without actions"),
    ("item", 0, "function", "there is none: rules call nothing"),
    ("item", 1, "import static", "there is none: rules call nothing"),
    # a declaration
    ("item", 0, "entrypoint", '`declare entry-point "ATM" end`'),
    ("field", 2, "type W W", "`declare A`, without `type`"),
    ("field", 2, "window W", "a window stands after its pattern: `Tick() over window:time( 10s )`"),
    ("declaration", 0, "extends", "`extends` stands after the name: `declare Level extends Reading`"),
    ("field", 0, "extends", "`extends` stands after the name: `declare Level extends Reading`"),
    ("field", 2, "extends W ,", "a type extends one other"),
    ("field", 1, "reference (", "`@reference` alone, without parentheses"),
    ("field", 0, "@", "annotations stand between the name and the fields"),
    ("field", 0, ",", "no mark between fields"),
    ("field", 0, ";", "no mark between fields"),
    ("field", 0, ".", "the bare kind: `String`"),
    ("field", 0, "=", "a field has no default: an `insert` gives each one"),
    ("field", 1, "default", "a field has no default: an `insert` gives each one"),
    ("annotation", 2, "role ( T", "`@role( event )`, without quotes"),
    ("annotation", 1, "N W", ONE_TOKEN),
    ("annotation", 0, "key", "leave it out: " + KNOWN),
    ("annotation", 0, "W", KNOWN),
    # the attributes of a rule
    ("attribute", 0, "no - loop", ONCE),
    ("attribute", 0, "lock - on", ONCE),
    ("attribute", 0, "agenda - group", PHASE),
    ("attribute", 0, "ruleflow - group", PHASE),
    ("attribute", 0, "activation - group",
     "leave it out: `not( Chosen( item == $i ) )` in each rule, and each inserts one"),
    ("attribute", 0, "auto - focus", LEFT_OUT),
    ("attribute", 0, "date - W", LEFT_OUT),
    ("attribute", 0, "enabled", LEFT_OUT),
    ("attribute", 0, "extends", LEFT_OUT),
    ("attribute", 0, "duration", NEVER),
    ("attribute", 0, "timer", NEVER),
    ("attribute", 0, "calendars", LEFT_OUT),
    ("attribute", 0, "@", "rules have no annotations: a comment says it, `// severity: high`"),
    ("attribute", 1, "salience =", "`salience 5`, without a mark"),
    ("attribute", 1, "salience (", "`salience 5`, without a mark"),
    ("attribute", 1, "salience $", "a salience is a number"),
    ("attribute", 2, "rule W W", 'a name of several words stands in quotes: `rule "two places"`'),
    ("attribute", 0, "then", "`when` and at least one condition are missing"),
    ("attribute", 0, "$ :", "`when` is missing before the conditions"),
    ("attribute", 0, "$ =", "`when` is missing before the conditions"),
    ("attribute", 0, "W (", "`when` is missing before the conditions"),
    # conditions
    ("condition", 2, ") by W", BY_KEY),
    ("condition", 1, ") by", BY_KEY),
    ("condition", 2, "point W -", QUOTED_NAME),
    ("group", 2, "point W -", QUOTED_NAME),
    ("accumulate", 2, "point W -", QUOTED_NAME),
    ("annotation", 2, "point W -", QUOTED_NAME),
    ("condition", 1, "when then", "a rule has at least one condition"),
    ("condition", 1, "W then", "the parentheses: `Case()`"),
    ("condition", 0, "insert (", "`then` is missing before the actions"),
    ("condition", 0, "modify (", "`then` is missing before the actions"),
    ("condition", 0, "retract (", "`then` is missing before the actions"),
    ("condition", 0, "end", "`then` is missing: it stands in each rule, also before no action"),
    ("condition", 1, "$ =", "`$a : Account( .. )`"),
    ("condition", 1, "W :", "a variable begins with `$`: `$a : Account( .. )`"),
    ("condition", 0, "and", JOINED),
    ("condition", 0, "or", CHOICE),
    ("condition", 0, "& &", JOINED),
    ("condition", 0, "&&", JOINED),
    ("condition", 0, "||", CHOICE),
    ("alternatives", 0, ")", "leave the parentheses out, or write a second alternative: `( A() or B() )`"),
    ("alternatives", 0, "then", "`)` is missing"),
    ("alternatives", 0, "(", "alternatives are nested at most 16 deep"),
    ("condition", 0, ",", JOINED),
    ("condition", 0, ";", JOINED),
    ("condition", 0, ".", "a type has no package: `Case( .. )`"),
    ("behind entry", 0, "over", '`over` stands before `from`: `Draw() over window:time( 1h ) from entry-point "ATM"`'),
    ("group", 0, "then", "`)` is missing"),
    ("group", 0, "or", ONE_PATTERN + "; neither of two is two `not`, one below the other"),
    ("group", 1, ") by", BY_KEY),
    ("group", 0, "W", ONE_PATTERN),
    ("group", 0, "$", ONE_PATTERN),
    ("group", 0, ",", ONE_PATTERN),
    ("entry", 1, "from collect", "`accumulate( $i : Item(); $many : count( $i ); $many >= 3 )`"),
    ("entry", 1, "from accumulate", "`$sum : Number() from accumulate( .. )`"),
    ("entry", 1, "from T", '`from entry-point "ATM"`'),
    ("entry", 1, "from entrypoint", '`from entry-point "ATM"`'),
    ("entry", 1, "from W", '`from entry-point "ATM"` alone; each element of a list is a fact'),
    ("entry", 1, "from $", '`from entry-point "ATM"` alone; each element of a list is a fact'),
    ("window", 0, ".", "`window:time( 1h )`"),
    ("window", 0, "[", "round parentheses: `window:time( 1h )`"),
    ("window", 1, "N W", ONE_TOKEN),
    ("window", 2, "window : W", "the windows are `window:time( 1h )` and `window:length( 5 )`"),
    ("window", 1, "over W", "`over window:time( 1h )`"),
    # accumulates
    ("accumulate", 0, "init", "`accumulate( Draw( $x : cents ); $sum : sum( $x ) )`: the five functions alone"),
    ("accumulate", 3, "( $ ) ,", ONE_FUNCTION),
    ("accumulate", 0, "*", NO_SUMS),
    ("accumulate", 0, "+", NO_SUMS),
    ("accumulate", 0, "-", NO_SUMS),
    ("accumulate", 0, ",", "`;` stands before the function, and before the tests of its result"),
    ("accumulate", 1, "; W", "the result has a variable: `$total : sum( $x )`"),
    ("accumulate", 1, ", W", "the result has a variable: `$total : sum( $x )`"),
    ("accumulate", 1, ") by", BY_KEY),
    ("accumulate", 0, "W", ONE_SOURCE),
    ("accumulate", 0, "$ : W (", ONE_SOURCE),
    ("function", 0, "avg", "`average( $x )`"),
    ("function", 1, "( )", ARGUMENT),
    ("function", 1, "( N", ARGUMENT),
    ("function", 1, "( W", ARGUMENT),
    ("function", 0, "W", "the functions are `count`, `sum`, `min`, `max`, `average`"),
    ("result", 0, "$", "a test of the result begins with its variable"),
    ("value", 0, "W", "a test of the result is `longValue > 10`"),
    # parts of a pattern
    ("part", 0, "D", "a number of milliseconds: `price > 10000`"),
    ("part", 3, "[ D , D $", "`]` is missing"),
    ("part", 4, "[ D , D $", "`]` is missing"),
    ("part", 0, "null", "there is no `null`: each fact has all its fields"),
    ("part", 1, "this !=",
     "compare a field that is a key: `id != $a.id`; an event is not after itself: `after[1ms,60s]`"),
    ("part", 1, "this ==", "compare a field that is a key: `id == $a.id`"),
    ("part", 1, "this .", "the field alone: `price`"),
    ("part", 1, "this not", "there is no `not` here: two rules, or a `not( .. )` of a pattern"),
    ("part", 2, "this W (", "square brackets: `this after[0s,30s] $a`"),
    ("part", 1, "] )", "the event that is meant: `this after[0s,5s] $a`"),
    ("part", 1, "] ,", "the event that is meant: `this after[0s,5s] $a`"),
    ("part", 2, "this W )", "the event that is meant: `this after[0s,5s] $a`"),
    ("part", 2, "this W ,", "the event that is meant: `this after[0s,5s] $a`"),
    ("part", 1, "] W", "a variable begins with `$`: `this after[0s,5s] $a`"),
    ("part", 2, "this W W", "a variable begins with `$`: `this after[0s,5s] $a`"),
    ("part", 1, "N W", ONE_TOKEN),
    ("part", 1, "W after", "`this after[0s,30s] $a`: the times are known from the type"),
    ("part", 1, "W before", "`this before[0s,30s] $a`: the times are known from the type"),
    ("part", 1, "N .", WHOLE),
    ("part", 0, "= >", "`>=`"),
    ("part", 0, "= <", "`<=`"),
    ("part", 1, "< >", "`!=`"),
    ("part", 1, "W =", "`==`"),
    ("part", 1, "W not", "`price != 10, price != 20` instead of `not in`"),
    ("part", 1, "W . equals", '`name == "tea"`'),
    ("part", 1, "W . startsWith", TEXT_TESTS),
    ("part", 1, "W . endsWith", TEXT_TESTS),
    ("part", 1, "W . contains", TEXT_TESTS),
    ("part", 1, "W . matches", TEXT_TESTS),
    ("part", 1, "W . W", NO_PARTS),
    ("part", 1, "W matches", TEXT_TESTS),
    ("part", 1, "W contains", TEXT_TESTS),
    ("part", 1, "W memberOf", TEXT_TESTS),
    ("part", 1, "W soundslike", TEXT_TESTS),
    ("part", 1, "W str", TEXT_TESTS),
    ("part", 3, "forall ( W (", "`not( Item( sold == false ) )` for `forall( Item( sold == true ) )`"),
    ("part", 1, "W (", "the field alone: `cents`, and not `getCents()`"),
    ("part", 1, "W )", "a truth value is compared: `open == true`"),
    ("part", 1, "W ,", "a truth value is compared: `open == true`"),
    ("part", 1, "W &&", "a truth value is compared: `open == true`"),
    ("part", 1, "W ||", "a truth value is compared: `open == true`"),
    ("part", 1, "in T", '`in ( "a", "b" )`'),
    ("part", 1, "in N", "`in ( 1, 2 )`"),
    ("part", 1, "&& <", "the field is named each time: `price > 10, price < 20`"),
    ("part", 1, "&& >", "the field is named each time: `price > 10, price < 20`"),
    ("part", 1, "&& <=", "the field is named each time: `price > 10, price < 20`"),
    ("part", 1, "&& >=", "the field is named each time: `price > 10, price < 20`"),
    ("part", 0, "(", "no parentheses in a part: `&&` binds tighter than `||`, and parts are parted by `,`"),
    ("part", 0, "N", "the field stands first: `price > 10`"),
    ("part", 0, "T", 'the field stands first: `name == "tea"`'),
    ("part", 1, "$ .", "a part begins with a field of its own pattern: `id == $a.id`"),
    ("part", 3, "$ : W ==", "two parts: `$x : price, price == 10`"),
    ("part", 3, "$ : W !=", "two parts: `$x : price, price != 10`"),
    ("part", 3, "$ : W >", "two parts: `$x : price, price > 10`"),
    ("part", 3, "$ : W <", "two parts: `$x : price, price < 10`"),
    ("part", 3, "$ : W >=", "two parts: `$x : price, price >= 10`"),
    ("part", 3, "$ : W <=", "two parts: `$x : price, price <= 10`"),
    ("part", 0, "+", NO_SUMS),
    ("part", 0, "-", NO_SUMS),
    ("part", 0, "*", NO_SUMS),
    ("part", 0, "|| this", "two rules, or one test whose bounds hold both"),
    ("part", 1, "|| this", "two rules: a temporal test is a part of its own"),
    ("part", 0, "&& this", "`,` before it: a temporal test is a part of its own"),
    ("part", 1, "&& this", "`,` before it: a temporal test is a part of its own"),
    ("part", 3, "$ . W (", FIELD_ALONE),
    # actions
    ("action", 2, "insert ( W", INSERTED),
    ("action", 2, "insert ( $", INSERTED),
    ("action", 2, "modify ( $ ,", "`modify( $a ) { price = 5, sold = true }`"),
    ("action", 3, "modify ( $ ,", "`modify( $a ) { price = 5, sold = true }`"),
    ("action", 0, "update (", "leave it out: `modify( $a ) { price = 5 }` says what changes"),
    ("action", 0, "delete (", "`retract( $a );`"),
    ("action", 0, "insertLogical (", "two rules: one inserts, and one retracts it where the reason is gone"),
    ("action", 0, "if (", "two rules with contrary conditions"),
    ("action", 0, "System .", NO_CALLS),
    ("action", 0, "drools .", '`{"do":"fire","max":5}` in the script'),
    ("action", 0, "W W =", INSERTED),
    ("action", 0, "$ .", "`modify( $a ) { price = 5 }`"),
    ("action", 0, "W .", NO_CALLS),
    ("action", 0, "W (", NO_CALLS),
    ("assignment", 1, "W ==", "`price = 5`"),
    ("assignment", 1, "W :", "`price = 5`"),
    ("assignment", 1, "W +", "`price = $a.price + 1`"),
    ("assignment", 1, "W -", "`price = $a.price - 1`"),
    ("assignment", 0, "}", "at least one field: `{ price = 5 }`"),
    ("assignment", 0, ";", "`,` between: `{ price = 5, sold = true }`"),
    ("assignment", 0, "W", "a field of the fact is `$a.price`"),
    ("expression", 0, "W =", "the values alone, in the order of the fields: `new Case( 7, \"places\" )`"),
    ("expression", 1, "N .", WHOLE),
    ("expression", 0, "null", "there is no `null`: each fact has all its fields"),
    ("expression", 3, "$ . W (", FIELD_ALONE),
    ("expression", 1, "W (", NO_CALLS),
    ("expression", 0, "(", NO_CALLS),
    ("expression", 0, "new", "one fact in each `insert`"),
    ("expression", 0, "W", "a field of a fact is `$a.price`"),
)]


def is_like(token: Token, wanted: str) -> bool:
    """Whether a token is what one word of a pattern says."""
    kinds = {"W": "word", "$": "var", "N": "number", "D": "time", "T": "text"}
    if wanted in kinds:
        return token.kind == kinds[wanted]
    return token.kind in ("word", "mark") and token.value == wanted


def stands(tokens: Sequence[Token], place: int, pattern: str) -> bool:
    """Whether the tokens from a place on are those of a pattern."""
    words = pattern.split()
    return place >= 0 and place + len(words) <= len(tokens) and all(map(is_like, tokens[place:], words))


def with_article(type_name: str) -> str:
    """A type with its article."""
    return f"{'an' if type_name[:1] in tuple('AEIOaeio') else 'a'} `{type_name}`"


def close_to(word: str, among: Sequence[str]) -> str:
    """The likeliest word that was meant, quoted, or nothing."""
    found = get_close_matches(word, among, 1, 0.6) or [w for w in among if w.lower() == word.lower()]
    return f"`{found[0]}`?" if found else ""


def misspelt(production: str, tokens: Sequence[Token], place: int) -> str:
    """A word of the language that is nearly the one that stands here."""
    if place >= len(tokens) or tokens[place].kind != "word":
        return ""
    word = str(tokens[place].value)
    if production == "part" and stands(tokens, place - 1, "this W"):
        known = "the operators are " + ", ".join(temporal.OPERATORS)
        return close_to(word, temporal.OPERATORS) or known
    if production == "annotation" and stands(tokens, place - 1, "@ W"):
        return close_to(word, ("role", "timestamp", "duration", "expires", "reference"))
    if production == "function" and word != "avg" and not stands(tokens, place - 1, "( W"):
        return close_to(word, sorted(reader.FUNCTIONS))
    return ""


def is_inside(word: str, tokens: Sequence[Token], place: int) -> bool:
    """Whether the innermost parenthesis that is open before a place stands behind this word."""
    depth = 0
    for k in range(min(place, len(tokens)) - 1, 0, -1):
        depth += stands(tokens, k, ")")
        depth -= stands(tokens, k, "(")
        if depth < 0:
            return stands(tokens, k - 1, word)
    return False


def is_reserved_name(production: str, tokens: Sequence[Token], place: int) -> bool:
    """Whether a reserved word stands where a name is expected."""
    return (production in ("field", "declaration") and place < len(tokens) and tokens[place].kind == "word"
            and not reader.is_ident(str(tokens[place].value)) and tokens[place].value != "end"
            and not stands(tokens, place - 1, "default") and not stands(tokens, place, "extends W"))


def is_kind_first(production: str, tokens: Sequence[Token], place: int) -> bool:
    """`String town` in the place of `town : String`."""
    return production == "field" and stands(tokens, place - 1, "W W") and not stands(tokens, place - 2, ": W W")


def instead_of(production: str, tokens: Sequence[Token], place: int) -> str:
    """What to write instead of what stands at a place, or nothing where that is not known."""
    if is_reserved_name(production, tokens, place):
        return f"`{tokens[place].value}` is a reserved word: another name"
    if production == "part" and is_inside("eval", tokens, place):
        return NO_EVAL
    found = misspelt(production, tokens, place)
    if found:
        return found
    form = next((f for f in FORMS if f.production == production and stands(tokens, place - f.back, f.pattern)), None)
    if form is not None:
        return form.instead
    if is_kind_first(production, tokens, place):
        return "the name stands first: `town : String`"
    return ""
