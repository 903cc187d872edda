"""The parts of other assemblers' lines, and their expressions: how each writes numbers and operators, in which rank, and what they come to. For
bin/translate.

What is here was taken from the manuals of pasmo 0.5.3, z80asm 1.8, the GNU assembler for the Z80, sdasz80 of SDCC and sjasmplus, and, but for the last,
tried against the programs themselves.
"""
import re
from collections.abc import Callable, Mapping
from dataclasses import dataclass, field

# ("number", n), ("name", word), ("here",), ("defined", word), ("unary", operator, tree), ("binary", operator, tree, tree), ("choice", tree, tree, tree)
Tree = tuple
# "unary", "binary" or, where a op b op c is a op (b op c), "from right", and the operators of the rank; ranks begin with the one that binds least
Rank = tuple[str, tuple[str, ...]]


class Fault(Exception):
    """Something in a source that isn't known: what it is."""


class Unknown(Exception):
    """A name without a value so far."""


@dataclass(frozen=True)
class Dialect:
    """How an assembler writes expressions and lines."""

    name: str
    ranks: tuple[Rank, ...]
    truth: int  # what a comparison that holds comes to
    bits: int  # after each operator a value is taken to so many bits, without sign; 0 where it isn't cut
    hexadecimal: str = ""  # signs before a hexadecimal number
    has_suffixes: bool = True  # 0FFH, 101B
    has_octal_zero: bool = False  # 017 is 15
    zero_bases: str = "x"  # letters after a 0 that say the base
    has_choice: bool = False  # a ? b : c
    has_colons: bool = False  # a label without a colon isn't one
    locals: str = ""  # which labels that begin with a dot belong to the label before, or to the file or macro
    escapes: str = ""  # the quotes in which a backslash counts
    here: tuple[str, ...] = ("$",)
    logical_truth: int | None = None
    words: Mapping[str, str] = field(default_factory=dict)  # operators that are words, by the sign that says the same


WORDS = {
    "MOD": "%", "SHL": "<<", "SHR": ">>", "AND": "&", "OR": "|", "XOR": "^", "NOT": "~", "EQ": "=", "NE": "!=", "LT": "<", "LE": "<=", "GT": ">",
    "GE": ">=", "HIGH": "high", "LOW": "low",
}  # fmt: skip
COMPARISONS = ("=", "==", "!=", "<>", "<", ">", "<=", ">=")
TIGHT: Rank = ("unary", ("~", "!", "+", "-"))
DIALECTS = {
    "pasmo": Dialect(
        "pasmo", (
            ("unary", ("high", "low")), ("binary", ("||",)), ("binary", ("&&",)), ("binary", ("|", "^")), ("binary", ("&",)), TIGHT,
            ("binary", COMPARISONS), ("binary", ("+", "-")), ("binary", ("*", "/", "%", "<<", ">>")),
        ), truth=0xFFFF, bits=16, hexadecimal="$#&", has_choice=True, escapes='"', words=WORDS,
    ),
    "z80asm": Dialect(
        "z80asm", (
            ("binary", ("|",)), ("binary", ("^",)), ("binary", ("&",)), ("from right", ("=", "==", "!=")), ("from right", ("<", ">", "<=", ">=")),
            ("binary", ("<<", ">>")), ("binary", ("+", "-")), ("binary", ("*", "/", "%")), TIGHT,
        ), truth=1, bits=0, hexadecimal="$", has_octal_zero=True, has_choice=True, has_colons=True, locals="file", escapes="\"'",
    ),
    "gas": Dialect(
        "gas", (
            ("binary", ("||",)), ("binary", ("&&",)), ("binary", COMPARISONS), ("binary", ("+", "-")), ("binary", ("|", "&", "^")),
            ("binary", ("*", "/", "%", "<<", ">>")), TIGHT,
        ), truth=-1, bits=0, hexadecimal="$", zero_bases="xb", has_colons=True, escapes='"', here=("$", "."), logical_truth=1,
    ),
    "sdas": Dialect(
        "sdas", (
            ("binary", ("|",)), ("binary", ("&",)), ("binary", ("^",)), ("binary", ("<<", ">>")), ("binary", ("+", "-")), ("binary", ("*", "/", "%")),
            ("unary", ("~", "+", "-", "<", ">")),
        ), truth=1, bits=32, has_suffixes=False, zero_bases="xboqdh", has_colons=True, here=(".",),
    ),
    "sjasmplus": Dialect(
        "sjasmplus", (
            ("binary", ("||",)), ("binary", ("&&",)), ("binary", ("|",)), ("binary", ("^",)), ("binary", ("&",)), ("binary", ("=", "==", "!=")),
            ("binary", ("<", ">", "<=", ">=")), ("binary", ("<<", ">>")), ("binary", ("+", "-")), ("binary", ("*", "/", "%")),
            ("unary", ("~", "!", "+", "-", "high", "low")),
        ), truth=-1, bits=0, hexadecimal="$#", zero_bases="xbq", locals="label", escapes='"', words=WORDS,
    ),
}  # fmt: skip
NAME = re.compile(r"[A-Za-z_.?@!\\][\w.?@$!#\\]*|\d+\$")
SIGN = re.compile(r"\|\||&&|<<|>>|<=|>=|==|!=|<>|[-+*/%&|^~!<>=?:]")
ESCAPES = {"n": 10, "r": 13, "t": 9, "a": 7, "\\": 92, '"': 34, "'": 39, "0": 0, "e": 27, "b": 8, "f": 12, "v": 11}


def text_of(word: str, dialect: Dialect) -> bytes:
    """The bytes of a text with its quotes."""
    quote, inside, found, at = word[0], word[1:-1], bytearray(), 0
    while at < len(inside):
        if inside[at] == "\\" and quote in dialect.escapes:
            octal = re.match(r"[0-7]{1,3}" if dialect.name == "pasmo" else r"[0-7]{2,3}", inside[at + 1 :])
            hexa = re.match(r"x([0-9A-Fa-f]{1,2})", inside[at + 1 :])
            if octal or hexa:
                found.append(int(octal[0], 8) & 255 if octal else int(hexa[1], 16) if hexa else 0)
                at += 1 + len(octal[0] if octal else hexa[0] if hexa else "")
                continue
            if inside[at + 1 : at + 2] not in ESCAPES:
                raise Fault(f"the escape {inside[at : at + 2]}")
            found.append(ESCAPES[inside[at + 1]])
            at += 2
        else:
            found += inside[at].encode("latin-1")
            at += 2 if inside[at : at + 2] == quote * 2 else 1
    return bytes(found)


def quoted(text: str) -> str:
    """The text with its quotes with which something begins; nothing where it begins with none, or where it isn't closed."""
    if text[:1] not in ("'", '"'):
        return ""
    quote, at = text[0], 1
    while at < len(text):
        if text[at] == "\\" and at + 1 < len(text) and text[at + 1] in ("\\", quote) and at + 2 < len(text):
            at += 2
        elif text[at] == quote and text[at + 1 : at + 2] == quote:
            at += 2
        elif text[at] == quote:
            return text[: at + 1]
        else:
            at += 1
    return ""


def parted(text: str, dialect: Dialect | None = None) -> list[str]:
    """The parts of a text between commas, outside of quotes and groups."""
    found, depth, begin, at = list[str](), 0, 0, 0
    while at < len(text):
        if dialect and dialect.name == "sdas" and text[at] == "'" and not quoted(text[at : at + 3]):
            at += 2  # a character, which nothing closes
            continue
        text_there = quoted(text[at:]) if text[at] in "'\"" and not text[:at].upper().rstrip().endswith("AF") else ""
        if text_there:
            at += len(text_there)
            continue
        depth += {"(": 1, "[": 1, "<": 0, ")": -1, "]": -1}.get(text[at], 0)
        if text[at] == "," and depth == 0:
            found.append(text[begin:at].strip())
            begin = at + 1
        at += 1
    rest = text[begin:].strip()
    return [*found, rest] if rest or found else []


def without_comment(text: str, dialect: Dialect) -> tuple[str, str]:
    """A line without its comment, and the comment."""
    at = 0
    if dialect.name == "gas" and text.lstrip().startswith("#"):
        return "", text.lstrip()[1:].strip()
    while at < len(text):
        if text[at] == ";" or text.startswith("//", at) and dialect.name in ("sjasmplus", "gas"):
            return text[:at].rstrip(), text[at:].lstrip(";/").strip()
        there = quoted(text[at:]) if text[at] in "'\"" else ""
        if there and not (text[at] == "'" and re.search(r"\bAF$", text[:at], re.I)):
            at += len(there)
        elif dialect.name == "sdas" and text[at] == "'" and at + 1 < len(text):
            at += 2
        else:
            at += 1
    return text.rstrip(), ""


class Reader:
    """Reads an expression from the front of a text."""

    def __init__(self, text: str, dialect: Dialect) -> None:
        self.text, self.dialect = text.strip(), dialect

    def skip(self, count: int) -> str:
        """Takes so many characters, and the blanks after them."""
        word, self.text = self.text[:count], self.text[count:].lstrip()
        return word

    def sign(self, operators: tuple[str, ...]) -> str | None:
        """Takes an operator of a rank, if one is next."""
        word = re.match(r"[A-Za-z]+(?![\w.$?@])", self.text)
        if word and (said := self.dialect.words.get(word[0].upper())) in operators:
            self.skip(len(word[0]))
            return said
        found = SIGN.match(self.text)
        sign = found[0] if found else ""
        while sign and sign not in operators and len(sign) > 1:
            sign = sign[:-1]
        if not sign or sign not in operators or found and len(found[0]) > len(sign) and found[0] in [one for _, ones in self.dialect.ranks for one in ones]:
            return None
        self.skip(len(sign))
        return sign

    def whole(self) -> Tree:
        """The expression that all of the text is."""
        tree = self.choice()
        if self.text:
            raise Fault(f"what is left of an expression, {self.text!r}")
        return tree

    def choice(self) -> Tree:
        """An expression."""
        tree = self.rank(0)
        if self.dialect.has_choice and self.text[:1] == "?":
            self.skip(1)
            first = self.choice()
            if self.text[:1] != ":":
                raise Fault("a ? without its :")
            self.skip(1)
            return ("choice", tree, first, self.choice())
        return tree

    def rank(self, number: int) -> Tree:
        """An expression of a rank and those that bind more."""
        if number == len(self.dialect.ranks):
            return self.operand()
        kind, operators = self.dialect.ranks[number]
        if kind == "unary":
            sign = self.sign(operators)
            return self.rank(number + 1) if sign is None else ("unary", sign, self.rank(number))
        tree = self.rank(number + 1)
        while (sign := self.sign(operators)) is not None:
            tree = ("binary", sign, tree, self.rank(number + (kind == "binary")))
        return tree

    def operand(self) -> Tree:
        """A number, a name, a character, or a group."""
        if self.text[:1] == "(" or self.text[:1] == "[":
            closing = {"(": ")", "[": "]"}[self.skip(1)]
            tree = self.choice()
            if self.text[:1] != closing:
                raise Fault(f"a group without its {closing}")
            self.skip(1)
            return tree
        number = self.number()
        if number is not None:
            return ("number", number)
        for sign in self.dialect.here:
            if self.text.startswith(sign) and not re.match(r"[\w.$?@]", self.text[1:]):
                self.skip(1)
                return ("here",)
        text = quoted(self.text)
        if text:
            content = text_of(self.skip(len(text)), self.dialect)
            if len(content) != 1:
                raise Fault(f"a text in an expression, {text}")
            return ("number", content[0])
        if self.dialect.name in ("sdas", "gas") and re.match(r"'.", self.text):
            return ("number", ord(self.skip(2)[1]))
        found = NAME.match(self.text)
        if not found:
            raise Fault(f"no expression: {self.text!r}" if self.text else "an expression that isn't there")
        word = self.skip(len(found[0]))
        if self.dialect.name == "pasmo" and word.upper() == "NUL":  # whether nothing follows: a value that wasn't given to a macro
            rest = self.skip(len(self.text))
            return ("number", 0 if rest else self.dialect.truth)
        if self.dialect.name == "pasmo" and word.upper() == "DEFINED":
            asked = NAME.match(self.text)
            if not asked:
                raise Fault("DEFINED without a name")
            return ("defined", self.skip(len(asked[0])))
        return ("name", word)

    def number(self) -> int | None:
        """Takes a number, if one is next."""
        text, dialect = self.text, self.dialect
        forms: list[tuple[str, int]] = []
        for letter, base in {"x": 16, "h": 16, "b": 2, "o": 8, "q": 8, "d": 10}.items():
            if letter in dialect.zero_bases:
                forms.append((rf"0{letter}([0-9A-F]+)(?![\w$])", base))
        if dialect.hexadecimal:
            forms.append((rf"[{re.escape(dialect.hexadecimal)}]([0-9A-F]+)(?!\w)", 16))
            forms += [(r"%([01]+)(?!\w)", 2)]
        if dialect.name in ("z80asm", "pasmo"):
            forms += [(r"&h([0-9A-F]+)(?!\w)", 16), (r"&b([01]+)(?!\w)", 2), (r"&o([0-7]+)(?!\w)", 8)]
        if dialect.has_suffixes:
            forms += [(r"([0-9][0-9A-F]*)h(?!\w)", 16), (r"([01]+)b(?!\w)", 2), (r"([0-7]+)[oq](?!\w)", 8), (r"([0-9]+)d(?!\w)", 10)]
        if dialect.has_octal_zero:
            forms.append((r"0([0-7]+)(?!\w)", 8))
        forms.append((r"([0-9]+)(?![\w$])", 10))
        for form, base in forms:
            found = re.match(form, text, re.I)
            if found:
                try:
                    value = int(found[1], base)
                except ValueError:
                    continue
                self.skip(found.end())
                return value
        if re.match(r"\d", text) and not re.match(r"\d+\$", text):
            raise Fault(f"a number of a form that isn't known, {re.match(r'[0-9A-Za-z_]+', text)[0]!r}")  # type: ignore[index]
        return None


def divided(one: int, other: int) -> int:
    """A quotient, toward zero."""
    if other == 0:
        raise Fault("a division by zero")
    return abs(one) // abs(other) * (1 if (one < 0) == (other < 0) else -1)


def binary(sign: str, one: int, other: int, dialect: Dialect) -> int:
    """What two values with an operator between them come to."""
    if sign in COMPARISONS:
        holds = {"=": one == other, "<": one < other, ">": one > other, "<=": one <= other, ">=": one >= other}
        is_so = holds.get({"==": "="}.get(sign, sign), one != other)
        return dialect.truth if is_so else 0
    if sign in ("&&", "||"):
        truth = dialect.truth if dialect.logical_truth is None else dialect.logical_truth
        return truth if (one and other if sign == "&&" else one or other) else 0
    if sign in ("<<", ">>") and not 0 <= other < 64:
        return 0
    results: dict[str, Callable[[], int]] = {
        "+": lambda: one + other, "-": lambda: one - other, "*": lambda: one * other, "/": lambda: divided(one, other),
        "%": lambda: one - divided(one, other) * other, "<<": lambda: one << other, ">>": lambda: one >> other,
        "&": lambda: one & other, "|": lambda: one | other, "^": lambda: one ^ other,
    }  # fmt: skip
    return results[sign]()


def unary(sign: str, one: int, dialect: Dialect) -> int:
    """What a value with an operator before it comes to."""
    if sign == "!" and dialect.name != "pasmo":
        truth = dialect.truth if dialect.logical_truth is None else dialect.logical_truth
        return 0 if one else truth
    return {"+": one, "-": -one, "~": ~one, "!": ~one, "high": one >> 8 & 255, "low": one & 255, "<": one & 255, ">": one >> 8 & 255}[sign]


def value_of(tree: Tree, dialect: Dialect, named: Callable[[str], int], here: int) -> int:
    """The value of an expression, by its assembler's rules."""
    kind = tree[0]
    if kind == "choice":  # the branch that isn't taken isn't asked for
        return value_of(tree[2] if value_of(tree[1], dialect, named, here) else tree[3], dialect, named, here)
    if kind in ("number", "name", "here"):
        return int(tree[1]) if kind == "number" else named(tree[1]) if kind == "name" else here
    if kind == "binary" and tree[1] in ("&&", "||"):  # what the first decides, the second isn't asked for
        first = value_of(tree[2], dialect, named, here)
        if bool(first) == (tree[1] == "||"):
            return binary(tree[1], first, first, dialect)
    parts = [value_of(part, dialect, named, here) for part in tree[1:] if isinstance(part, tuple)]
    if dialect.bits:
        parts = [part % (1 << dialect.bits) for part in parts]
    value = unary(tree[1], parts[0], dialect) if kind == "unary" else binary(tree[1], parts[0], parts[1], dialect)
    return value % (1 << dialect.bits) if dialect.bits else value


def names_in(tree: Tree) -> set[str]:
    """The names in an expression."""
    if tree[0] == "name":
        return {tree[1]}
    return set().union(*(names_in(part) for part in tree[1:] if isinstance(part, tuple)))
