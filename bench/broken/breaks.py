"""Ways to break bytes, designs, plans, proofs and the words of a command line. Each takes a source of chances first."""

import re

NUMBERS = [
    b"0", b"1", b"-1", b"2", b"7", b"64", b"65", b"255", b"256", b"257", b"1000", b"4096", b"86400", b"86401",
    b"2147483647", b"2147483648", b"4294967295", b"4294967296", b"9007199254740993",
    b"9223372036854775807", b"9223372036854775808", b"18446744073709551615", b"18446744073709551616",
    b"999999999999999999", b"1000000000000000000", b"10000000000000000000", b"99999999999999999999",
    b"-9223372036854775808", b"-18446744073709551616", b"1.0", b"1.5", b"1e3", b"1e400", b"-0", b"+1", b"01", b"0x10", b"1_000",
    b"nan", b"inf", b"true", b"null", b"", b'"1"', b"[]", b"{}",
]  # fmt: skip

NAMES = [
    b'""', b'"a"', b'"A"', b'"B"', b'"b1"', b'"n1"', b'"z1"', b'"x y"', b'"\xff\xfe"', b'"\\u0000"', b'"\\n"', b'"\\uD800"', b'"\xc3\xa9"',
    b'"' + b"n" * 32 + b'"', b'"' + b"n" * 33 + b'"', b'"' + b"n" * 10_000 + b'"', b'"', b"'a'", b'"""a"""', b"1", b"[]", b"true",
]  # fmt: skip

NESTS = [(b"[", b"]"), (b"{a=", b"}"), (b'{"a":', b"}"), (b"[{a=[", b"]}]"), (b'"', b'"'), (b"a.", b""), (b"(", b")")]

NUMBER = re.compile(rb"-?\d+")
STRING = re.compile(rb'"[^"\n]*"')
PAIR = re.compile(rb'\w+ ?= ?(?:"[^"\n]*"|\w+|\[[^\[\]\n]*\])')
KEY = re.compile(rb'\b\w+(?= ?=)|"steps"')
LIST = re.compile(rb"\[[^\[\]]*\]|\[\[[^\n]*\]\]|\[[^\n]*\]|\[[^=]*\]")
TABLE = re.compile(rb"\{[^{}]*\}|\[[^\[\]]*\]")
TOKEN = re.compile(rb"[^ \n]+")


def spans(pattern, text):
    """The places where a pattern stands."""
    return [match.span() for match in pattern.finditer(text)]


def slice_of(chance, text, most=64):
    """The bounds of a short slice of a text, now and then of a long one."""
    start = chance.randint(0, len(text))
    longest = len(text) if chance.random() < 0.1 else most
    return start, min(len(text), start + chance.randint(1, longest or 1))


def replaced(text, span, by):
    """The text with other bytes at a place."""
    return text[: span[0]] + by + text[span[1] :]


def exchanged(text, one, other):
    """The text with two places exchanged that have nothing in common."""
    first, last = sorted((one, other))
    if first[1] > last[0]:
        return text
    return text[: first[0]] + text[last[0] : last[1]] + text[first[1] : last[0]] + text[first[0] : first[1]] + text[last[1] :]


def with_comma(text, span):
    """The place with the comma behind it, or with the one before it."""
    start, end = span
    behind = re.match(rb"\s*,\s*", text[end : end + 40])
    if behind:
        return start, end + behind.end()
    before = re.search(rb",\s*$", text[max(0, start - 40) : start])
    return (start - len(before.group()), end) if before else span


# Bytes.


def cut_off(chance, text):
    """A front of the text."""
    return text[: chance.randint(0, len(text))]


def cut_out(chance, text):
    """The text without a slice."""
    return replaced(text, slice_of(chance, text), b"")


def flip(chance, text):
    """The text with one bit of a byte turned."""
    if not text:
        return text
    place = chance.randrange(len(text))
    return replaced(text, (place, place + 1), bytes([text[place] ^ 1 << chance.randrange(8)]))


def other_byte(chance, text):
    """The text with another byte in the place of one."""
    if not text:
        return text
    place = chance.randrange(len(text))
    byte = chance.choice(b'\0\t\n\r "#%\',-.01259:=[]\\_aAdlrx{}\x7f\x80\xff') if chance.random() < 0.8 else chance.randrange(256)
    return replaced(text, (place, place + 1), bytes([byte]))


def put_in(chance, text):
    """The text with some bytes more."""
    place = chance.randint(0, len(text))
    return replaced(text, (place, place), chance.randbytes(chance.randint(1, 8)))


def double(chance, text):
    """The text with a slice of it twice or more often."""
    start, end = slice_of(chance, text)
    times = chance.choice((2, 2, 2, 3, 100)) if end - start < 200 else 2
    return replaced(text, (start, end), text[start:end] * times)


def splice(chance, text, other):
    """A front of the text and an end of another one."""
    return text[: chance.randint(0, len(text))] + other[chance.randint(0, len(other)) :]


def nest(chance, text):
    """The text with brackets in brackets."""
    place = chance.randint(0, len(text))
    begin, end = chance.choice(NESTS)
    many = chance.choice((2, 10, 127, 128, 129, 1_000, 30_000))
    inner = chance.choice((b"", b"1", b'"A",1'))
    closed = end * many if chance.random() < 0.7 else b""
    return replaced(text, (place, place), begin * many + inner + closed)


BYTES = (cut_off, cut_out, flip, flip, other_byte, other_byte, put_in, double)


# Designs and plans.


def other_number(chance, text):
    """Another number in the place of one."""
    found = spans(NUMBER, text)
    return replaced(text, chance.choice(found), chance.choice(NUMBERS)) if found else text


def near_number(chance, text):
    """A number changed by one or by a few, or made some times larger or smaller."""
    found = spans(NUMBER, text)
    if not found:
        return text
    start, end = chance.choice(found)
    number = int(text[start:end][:20])
    other = chance.choice((number - 1, number + 1, number - 1, number + 1, number + 10, number * 10, number // 10, number * 2, number // 2))
    return replaced(text, (start, end), str(other).encode())


def other_name(chance, text):
    """Another name in the place of one."""
    found = spans(STRING, text)
    return replaced(text, chance.choice(found), chance.choice(NAMES)) if found else text


def pattern_broken(pattern):
    """A way to drop, double, empty or exchange what a pattern meets."""

    def broken(chance, text):
        found = spans(pattern, text)
        if not found:
            return text
        one = chance.choice(found)
        way = chance.randrange(5)
        if way == 0:
            return replaced(text, with_comma(text, one), b"")
        if way == 1:
            return replaced(text, one, b",".join([text[one[0] : one[1]]] * chance.choice((2, 2, 2, 3, 40))))
        if way == 2:
            other = chance.choice(found)
            return replaced(text, one, text[other[0] : other[1]])
        return exchanged(text, one, chance.choice(found))

    return broken


def other_key(chance, text):
    """Another key in the place of one."""
    found = spans(KEY, text)
    if not found:
        return text
    start, end = chance.choice(found)
    other = chance.choice(found)
    key = chance.choice((text[other[0] : other[1]], text[start:end] + b"x", text[start : end - 1], b'""', b'"a b"', b"steps", b"name", b"x.y"))
    return replaced(text, (start, end), key)


def empty_list(chance, text):
    """An empty list or table in the place of one."""
    found = spans(LIST, text)
    return replaced(text, chance.choice(found), chance.choice((b"[]", b"[]", b"[[]]", b"[{}]", b"{}"))) if found else text


def other_line(chance, text):
    """Lines dropped, exchanged or repeated."""
    lines = text.splitlines(keepends=True)
    if not lines:
        return text
    one = chance.randrange(len(lines))
    way = chance.randrange(4)
    if way == 0:
        del lines[one]
    elif way == 1:
        lines.insert(one, lines[chance.randrange(len(lines))])
    elif way == 2:
        lines[one] *= chance.choice((2, 3, 50))
    else:
        other = chance.randrange(len(lines))
        lines[one], lines[other] = lines[other], lines[one]
    return b"".join(lines)


TEXTS = (
    other_number, near_number, near_number, near_number, other_name, pattern_broken(STRING), pattern_broken(STRING), pattern_broken(PAIR),
    pattern_broken(TABLE), pattern_broken(NUMBER), other_key, empty_list, other_line,
)  # fmt: skip

# Those after which a design is often still one.
SLIGHT = (near_number, near_number, near_number, other_number, pattern_broken(STRING), pattern_broken(TABLE), empty_list, other_line)


# Proofs.

HEADS = (
    b"rcvlog 1", b"rcvlog 5 1 2", b"rcvlog 5 1 3", b"rcvlog 4 1 2", b"rcvlog 4 1 3", b"rcvlog 4 1 4", b"rcvlog 2 1 2", b"rcvlog 4 2 2", b"rcvlog 4 1 0", b"rcvlog 1\r", b"",
    b"rcvlog 4 1 18446744073709551616", b"rcvlog", b"RCVLOG 1", b"rcvlog 2 1 3", b"rcvlog 2 1 4", b"rcvlog 2 2 2", b"rcvlog 3 1 2",
    b"rcvlog 6 1 2 1", b"rcvlog 6 1 4 1", b"rcvlog 6 1 2 0", b"rcvlog 6 1 2 2", b"rcvlog 6 1 2",
)  # fmt: skip

PROOF_LINES = (
    b"d 0 0", b"d 0 1 0", b"d -1 0 1 0", b"d 1 -1 0 1 0", b"x 1 0", b"x 0", b"x 14 0", b"d 0 14 0", b"d 1 2 3 0 1 2 3 0",
    b"r path 1 2 t 1 0 0 1 2 0 0 0", b"r within 1 t 1 9 2 1 2 0 0 0", b"r visit 1 2 t 1 600 2 1 2 0 0 0",
    b"r order 1 t 2 1 1 1 2 0 0 0", b"r grant 2 1 t 1 7 2 1 2 0 0 0 t 2 8 0 1 0 1 1 p 1 1 2 1",
    b"b within 1 from l 1 n 1 n 2", b"b within 1 zero l 1 n 1 n 2", b"b order 1 from l 2 n 1 l 1 n 1", b"b visit 1 2 zero l 1 n 1",
    b"b within 1 from l 1 n 1 a 2 3 0 0 a 5 7 0 0",
)  # fmt: skip

WORDS_OF_PROOFS = (b"0", b"1", b"2", b"-1", b"d", b"x", b"r", b"b", b"t", b"p", b"l", b"n", b"a", b"from", b"zero", b"within", b"order", b"path")


def other_head(chance, text):
    """Another head."""
    end = text.find(b"\n")
    return chance.choice(HEADS) + (text[end:] if end >= 0 else b"\n")


def new_line(chance, text):
    """A line more."""
    lines = text.splitlines(keepends=True)
    lines.insert(chance.randint(min(1, len(lines)), len(lines)), chance.choice(PROOF_LINES) + b"\n")
    return b"".join(lines)


def other_word(chance, text):
    """A word dropped, doubled, exchanged, or another one in its place."""
    found = spans(TOKEN, text)
    if not found:
        return text
    one = chance.choice(found)
    way = chance.randrange(5)
    if way == 0:
        return replaced(text, (one[0], min(one[1] + 1, len(text))), b"")
    if way == 1:
        return replaced(text, one, b" ".join([text[one[0] : one[1]]] * chance.choice((2, 2, 2, 3, 1_000))))
    if way == 2:
        return exchanged(text, one, chance.choice(found))
    if way == 3:
        return replaced(text, one, chance.choice(NUMBERS))
    return replaced(text, one, chance.choice(WORDS_OF_PROOFS))


PROOFS = (other_head, new_line, new_line, other_word, other_word, near_number, near_number, other_number, other_line, other_line)


def broken(chance, text, ways, other):
    """The text, broken once or a few times."""
    for _ in range(chance.choice((1, 1, 1, 1, 2, 2, 3, 6))):
        kind = chance.random()
        if kind < 0.02:
            text = nest(chance, text)
        elif kind < 0.06:
            text = splice(chance, text, other)
        elif kind < 0.25:
            text = chance.choice(BYTES)(chance, text)
        else:
            text = chance.choice(ways)(chance, text)
        if len(text) > 400_000:
            return text[:400_000]
    return text


# The words of a command line.

ODD_WORDS = (
    b"", b"-", b"--", b"-x", b"--help", b"-h", b"--version", b"-V", b"help", b"--bounds", b"--within", b"--within=1", b"--max-ms=8000", b"--steps", b"--steps=2", b"--step", b"--conflicts=9",
    b"--ticks", b"-1", b"--bounds=true", b"simulate", b"routes", b"verify", b"tightest", b"check", b"trial", b"explain", b"\xff\xfe", b"design.toml\xff", b"\xed\xa0\x80",
    "é".encode(), b"n" * 10_000, b"-" * 10_000, b"--" + b"s" * 10_000, b" ", b"a b", b"\n", b"\x01", b"none.toml", b".", b"..", b"design.toml/",
    b"./design.toml", b"design.toml", b"plan.json", b"proof.txt", b"new.txt", b"none/new.txt", b"%s%n", b"$HOME", b"*",
)  # fmt: skip

ODD_NUMBERS = NUMBERS + [b"9" * 21, b"1" * 10_000, b" 1", b"1 ", "１".encode(), b"3\n", b"00000000000000000002", b"000000000000000000002"]


def broken_words(chance, words):
    """The words of a command, the program's name aside, with something wrong."""
    words = list(words)
    for _ in range(chance.choice((1, 1, 2, 3))):
        place = chance.randrange(len(words)) if words else 0
        way = chance.randrange(6)
        if way == 0 and words:
            del words[place]
        elif way == 1 and words:
            words.insert(place, words[place])
        elif way == 2 and words:
            other = chance.randrange(len(words))
            words[place], words[other] = words[other], words[place]
        elif way == 3:
            words.insert(place, chance.choice(ODD_WORDS))
        elif words and words[place].isdigit():
            words[place] = chance.choice(ODD_NUMBERS)
        elif words:
            words[place] = chance.choice(ODD_WORDS)
    return words
