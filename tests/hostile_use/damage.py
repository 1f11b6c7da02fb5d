"""Damages to a text: bytes turned, lines dropped, doubled, moved and cut, words exchanged, numbers at their limits."""

import re

# bytes that the form of sources or of certificates gives a meaning, or forbids
MARKS = b"\x00\t\n\r \"'()*+,-./0129:;<=>ADDSXadx{}\x7f\x80\xff"
NUMBERS = [
    b"0", b"00", b"-0", b"+1", b"1", b"-1", b"9", b"18", b"19", b"32", b"33", b"64", b"65", b"512", b"513", b"4096",
    b"4097", b"999999999999999999", b"1000000000000000000", b"-999999999999999999", b"-1000000000000000000",
    b"2147483647", b"2147483648", b"4294967295", b"4294967296", b"4294967297", b"9223372036854775807",
    b"9223372036854775808", b"18446744073709551615", b"18446744073709551616", b"1048576", b"1048577", b"67108864",
    b"9" * 37, b"1" + b"0" * 37, b"-1" + b"0" * 37, b"1" + b"0" * 38, b"9" * 60, b"0.5", b"00000000000000000001",
    b"1E3",
]  # fmt: skip


def replaced(text, at, until, new):
    return text[:at] + new + text[until:]


def turned_bit(text, random):
    at = random.randrange(len(text))
    return replaced(text, at, at + 1, bytes([text[at] ^ 1 << random.randrange(8)]))


def turned_byte(text, random):
    at = random.randrange(len(text))
    new = random.choice(MARKS) if random.randrange(3) else random.randrange(256)
    return replaced(text, at, at + 1, bytes([new]))


def dropped_byte(text, random):
    at = random.randrange(len(text))
    return replaced(text, at, at + 1, b"")


def added_byte(text, random):
    at = random.randrange(len(text) + 1)
    return replaced(text, at, at, bytes([random.choice(MARKS)]))


def dropped_line(text, random):
    lines = text.splitlines(keepends=True)
    del lines[random.randrange(len(lines))]
    return b"".join(lines)


def doubled_line(text, random):
    lines = text.splitlines(keepends=True)
    at = random.randrange(len(lines))
    return b"".join([*lines[: at + 1], *lines[at:]])


def moved_line(text, random):
    lines = text.splitlines(keepends=True)
    line = lines.pop(random.randrange(len(lines)))
    lines.insert(random.randrange(len(lines) + 1), line)
    return b"".join(lines)


def cut_line(text, random):
    """A line that lacks its end, with or without the line's own."""
    lines = text.splitlines(keepends=True)
    at = random.randrange(len(lines))
    lines[at] = lines[at][: random.randrange(len(lines[at]) + 1)] + (b"\n" if random.randrange(2) else b"")
    return b"".join(lines)


def cut_text(text, random):
    return text[: random.randrange(len(text) + 1)]


def cut_front(text, random):
    return text[random.randrange(len(text) + 1) :]


def other_number(text, random):
    """A number in the place of another."""
    found = list(re.finditer(rb"-?[0-9]+", text))
    if not found:
        return text
    place = random.choice(found)
    near = b"%d" % (int(place[0]) + random.choice((-1, 1)))
    return replaced(text, *place.span(), random.choice((random.choice(NUMBERS), near)))


def other_word(text, random):
    """A word in the place of another, and where it is exchanged that one in its place."""
    found = list(re.finditer(rb"[^ \n]+", text))
    if len(found) < 2:
        return text
    one, other = sorted(random.sample(found, 2), key=lambda place: place.start())
    text = replaced(text, *other.span(), one[0])
    return replaced(text, *one.span(), other[0]) if random.randrange(2) else text


def doubled_block(text, random):
    """Some lines, said again elsewhere."""
    lines = text.splitlines(keepends=True)
    at, to = random.randrange(len(lines)), random.randrange(len(lines))
    block = lines[at : at + random.randrange(1, 9)]
    return b"".join([*lines[:to], *block, *lines[to:]])


def near_number(text, random):
    """A number by one greater or lesser, or with another digit."""
    found = list(re.finditer(rb"[0-9]+", text))
    if not found:
        return text
    place = random.choice(found)
    at = random.randrange(*place.span())
    by_one = b"%d" % abs(int(place[0]) + random.choice((-1, 1)))
    other_digit = replaced(text, at, at + 1, b"%d" % random.randrange(10))
    return random.choice((replaced(text, *place.span(), by_one), other_digit))


def other_name(text, random):
    """A word of letters in the place of another."""
    found = list(re.finditer(rb"(?<![A-Z0-9-])[A-Z][A-Z0-9-]*", text))
    if not found:
        return text
    return replaced(text, *random.choice(found).span(), random.choice(found)[0])


def changed_line(text, random, pattern, change):
    """One of the lines of this form, changed."""
    found = list(re.finditer(pattern, text, re.M))
    if not found:
        return text
    place = random.choice(found)
    return replaced(text, *place.span(), change(place))


def other_claim(text, random):
    """A claim with another low end, high end, or both."""
    step = random.choice((1, -1)) * 10 ** random.randrange(19)

    def change(place):
        ends = [int(place[2]), int(place[3])]
        ends[random.randrange(2)] += step
        return b"c %b %d %d\n" % (place[1], *(sorted(ends) if random.randrange(9) else ends))

    return changed_line(text, random, rb"^c (\d+) (-?\d+) (-?\d+)\n", change)


def point_claim(text, random):
    """A claim of one of its ends alone, or of the widest range."""
    most = 10**18 - 1
    ends = random.choice((1, 2, None))
    return changed_line(
        text,
        random,
        rb"^c (\d+ )(-?\d+) (-?\d+)\n",
        lambda place: b"c %b%b %b\n" % (place[1], *(2 * [place[ends + 1]] if ends else [b"-%d" % most, b"%d" % most])),
    )


def other_bound(text, random):
    """A bound on a difference that is another number."""
    step = random.choice((1, -1)) * 10 ** random.randrange(19)
    pattern = rb"^(d \d+ \d+ \d+) (-?\d+)\n"
    return changed_line(text, random, pattern, lambda place: b"%b %d\n" % (place[1], int(place[2]) + step))


def dropped_claim(text, random):
    return changed_line(text, random, rb"^[cd] .*\n", lambda place: b"")


def unreached_node(text, random):
    """A node without claims, or which is claimed never to be reached; or one that can be reached."""
    word = random.choice((b"none", b"none", b"node"))
    return changed_line(text, random, rb"^no[dn]e (\d+)\n(?:[cd] .*\n)*", lambda place: b"%b %b\n" % (word, place[1]))


def moved_claims(text, random):
    """The claims of a node at another one."""
    found = re.findall(rb"^node \d+\n((?:[cd] .*\n)*)", text, re.M)
    if not found:
        return text
    claims = random.choice(found)
    pattern = rb"^node (\d+)\n(?:[cd] .*\n)*"
    return changed_line(text, random, pattern, lambda place: b"node %b\n%b" % (place[1], claims))


def added_pack(text, random):
    """A pack more, of 2 to 9 cells, with bounds of its cells at a node."""
    head = re.match(rb"COBSOUND 1\ncells (\d{1,3})\nnodes \d+\npacks (\d{1,2})\n((?:pack .*\n)*)", text)
    if not head or int(head[1]) < 9:
        return text
    cells = sorted(random.sample(range(1, int(head[1]) + 1), random.randrange(2, 10)))
    number = int(head[2]) + 1
    packs = head[3] + b"pack %b\n" % b" ".join(b"%d" % cell for cell in cells)
    front = text[: head.start(2)] + b"%d\n" % number + packs
    places = sorted({(random.randrange(len(cells)), random.randrange(1, len(cells) + 1)) for _ in range(3)})
    bounds = b"".join(b"d %d %d %d %b\n" % (number, *place, random.choice(NUMBERS)) for place in places)
    pattern = rb"^node \d+\n(?:[cd] .*\n)*"
    return front + changed_line(text[head.end() :], random, pattern, lambda place: place[0] + bounds)


ROUGH = (
    turned_bit,
    turned_byte,
    dropped_byte,
    added_byte,
    dropped_line,
    doubled_line,
    moved_line,
    cut_line,
    other_number,
    other_word,
    doubled_block,
    cut_text,
    cut_front,
)
# these leave more of the form, so that what is behind it is reached
OF_SOURCES = (near_number, near_number, near_number, other_name, other_name, dropped_line, doubled_line)
OF_CERTIFICATES = (
    other_claim,
    point_claim,
    other_bound,
    dropped_claim,
    unreached_node,
    moved_claims,
    near_number,
    added_pack,
)


def damaged(text, random, gentle):
    """The text with one to three damages, more often gentle ones."""
    kinds = random.choice((ROUGH, gentle, gentle))
    for kind in random.choices(kinds, k=random.choice((1, 1, 1, 2, 3))):
        if text:
            text = kind(text, random)
    return text
