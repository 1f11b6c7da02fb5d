"""What is as large as may be, or larger by a byte: certificates; files without an end; and programs that ask for much
time or memory."""

import itertools

from bench.sources import source
from tests.built import ROOT
from tests.hostile_use.damaged import CERT, OLD, SOURCE
from tests.hostile_use.trials import Folder, Tally
from tests.limits import FRONT, lines_of

MOST_CERTIFICATE = 67_108_864
MOST_DIGITS = 18
LONG = -(10**MOST_DIGITS - 1)
ITEMS = 400
# so many of the last statements may be a MOVE
MOVES = 60


def claims_bytes(is_odd):
    """The bytes of a node's claims: of the counter C, and of the items, where one with two digits may have no VALUE."""
    cells = [cell for cell in range(2, ITEMS + 2) if not (is_odd and cell == 50)]
    return len("c 1 0 0\n") + sum(len(f"c {cell} {LONG} {LONG}\n") for cell in cells)


def certificate_bytes(nodes, is_odd):
    head = len(f"COBSOUND 1\ncells {ITEMS + 1}\nnodes {nodes}\npacks 0\nend\n")
    return head + sum(len(f"node {node}\n") for node in range(1, nodes + 1)) + nodes * claims_bytes(is_odd)


def shortenings(bytes_off):
    """By how many letters the MOVE at each place before STOP RUN shortens both ends of its item's claims, so that the
    certificate loses so many bytes. It does so at the nodes behind it: one more than its place."""
    found = {}
    for place in range(MOVES, 3, -1):
        found[place] = min(MOST_DIGITS, bytes_off // (2 * (place + 1)))
        bytes_off -= found[place] * 2 * (place + 1)
    for last in itertools.product(range(MOST_DIGITS + 1), repeat=3):
        if sum(count * 2 * (place + 1) for place, count in zip((1, 2, 3), last)) == bytes_off:
            return found | dict(zip((1, 2, 3), last))
    raise ValueError(bytes_off)


def program(nodes, is_odd, bytes_off):
    """A program in a straight line over 400 items with long VALUEs, whose certificate lacks so many bytes."""
    data = [f"77 N-{item} PIC S9(18) VALUE {LONG}." for item in range(ITEMS)]
    if is_odd:
        data[48] = "77 N-48 PIC S9(18)."
    lines = []
    for place, count in shortenings(bytes_off).items():
        number = 10 ** (MOST_DIGITS + 1 - count) - 1
        lines.append(f"MOVE {number} TO N-{100 + place}." if count else "CONTINUE.")
    idle = ["CONTINUE."] * (nodes - 2 - len(lines))
    return source([*idle, *lines, "STOP RUN."], data).encode()


def longest(off=0):
    """The source of a program whose certificate has the most bytes, less so many."""
    for nodes, is_odd in itertools.product(range(3_600, 3_800), (False, True)):
        more = certificate_bytes(nodes, is_odd) - MOST_CERTIFICATE + off
        if more > 0 and more % 2 == 0:
            return program(nodes, is_odd, more)
    raise ValueError("no such program")


def tried(tally, folder, words, wanted, kind, files=None):
    """Tries words whose answer is known. Small files are kept where it is another."""
    answer = folder.asked(*words)
    is_right = (answer.status, answer.out) == wanted
    changed = [name for name in answer.changed if not (words[0] == "analyse" and name == CERT and answer.status < 2)]
    faults = [] if is_right else [f"in place of {wanted[0]}, {wanted[1][-200:]!r}"]
    tally.add(answer, faults + [f"changes {name}" for name in changed], files or {}, kind)
    tally.step()


def certificates(options):
    """A certificate of the most bytes, written and checked; one longer by a byte, one by two that isn't written, one
    shorter by a byte; and bytes that are no certificate, as many as may be and one more."""
    tally = Tally("long certificates", options.keep)
    long = (3, b"E11 certificate too long\n")
    with Folder(options.program) as folder:
        text = longest()
        folder.put({SOURCE: text, CERT: OLD})
        clean, analysis = (0, b"clean\n"), ["analyse", SOURCE, CERT]
        tried(tally, folder, analysis, clean, "the most bytes, analyse", {SOURCE: text})
        certificate = folder.known[CERT]
        tally.notes.append(f"the longest certificate that was written has {len(certificate)} bytes")
        if len(certificate) != MOST_CERTIFICATE:
            tally.fault(f"the certificate has {len(certificate)} bytes", {SOURCE: text})
        tried(tally, folder, ["check", SOURCE, CERT], clean, "the most bytes, check")
        lines = certificate.count(b"\n")
        for changed, wanted, kind in (
            (certificate + b"\n", long, "a byte more, check"),
            (certificate[:-1], (3, b"E12 line %d\n" % lines), "a byte less, check"),
            (bytes(MOST_CERTIFICATE), (3, b"E12 line 1\n"), "the most zeros, check"),
            (bytes(MOST_CERTIFICATE + 1), long, "a zero more, check"),
        ):
            folder.put({SOURCE: text, CERT: changed})
            tried(tally, folder, ["check", SOURCE, CERT], wanted, kind)
        folder.put({SOURCE: longest(-2), CERT: OLD})
        tried(tally, folder, analysis, long, "two bytes more, analyse")
    return tally


def endless(options):
    """Files without an end in place of each file that is read."""
    tally = Tally("files without an end", options.keep)
    listing = (ROOT / "samples/listing.cob").read_bytes()
    # two steps before the loop, and three for each turn of it
    shown = 32 * (b"\0" * 80 + b"\n")
    with Folder(options.program) as folder:
        folder.put({SOURCE: listing, CERT: OLD})
        for words, wanted in (
            (["check", "/dev/zero", CERT], (2, b"E5 source too long\n")),
            (["analyse", "/dev/zero", CERT], (2, b"E5 source too long\n")),
            (["run", "/dev/zero"], (2, b"E5 source too long\n")),
            (["check", SOURCE, "/dev/zero"], (3, b"E11 certificate too long\n")),
            (["run", SOURCE, "--steps", "100", "INP=/dev/zero"], (10, shown + b"E16 steps 100\n")),
        ):
            tried(tally, folder, words, wanted, " ".join(words))
    return tally


def wrapped(words):
    """Words on lines of the fixed form."""
    lines, line = [], ""
    for word in words:
        if len(line) + len(word) > 60:
            lines.append(line)
            line = ""
        line += f"{word} "
    return lines_of([*lines, line])


def repeated(terms, relations):
    """A relation whose subject has so many terms, and so many abbreviated ones behind it, each of which repeats it."""
    words = ["IF", "N", *["+", "1"] * terms, "=", "1", *["OR", "2"] * relations, "CONTINUE."]
    return (FRONT + wrapped(words)).encode()


def chain(count):
    """Paragraphs each of which performs the next one."""
    links = [f"P{number}. PERFORM P{number + 1}." for number in range(1, count)]
    return (FRONT + lines_of(["PERFORM P1.", "STOP RUN.", *links, f"P{count}. EXIT."])).encode()


def demanding(options):
    """Programs that ask for much time: a loop for each cell, one sum as long as a source can be, paragraphs that
    perform each other. And programs whose conditions are written out to more than any memory holds: in a gigabyte of
    address space the answer is status 8."""
    tally = Tally("demanding programs", options.keep)
    loops = 511 * ["PERFORM 1 TIMES CONTINUE END-PERFORM."]
    long_sum = FRONT + wrapped(["COMPUTE", "N", "=", "1", *["+", "1"] * 230_000, "."])
    size = (1, b"SIZE statement 1 line 7\nalarms 1\n")
    gigabyte = ["/bin/sh", "-c", 'ulimit -v 1000000; exec "$0" "$@"']
    for kind, text, wanted, shell in (
        ("511 loops over 512 cells", (FRONT + lines_of(loops)).encode(), (0, b"clean\n"), ()),
        ("a chain of 30,000 paragraphs", chain(30_000), (9, b"E10 nodes 450045003\n"), ()),
        ("a sum of 230,001 numbers", long_sum.encode(), size, ()),
        ("a sum of 230,001 numbers in a gigabyte", long_sum.encode(), size, gigabyte),
        ("4,000 relations of 10,000 terms in a gigabyte", repeated(10_000, 4_000), (8, b"E19 memory\n"), gigabyte),
        ("90,000 relations of 100,000 terms in a gigabyte", repeated(100_000, 90_000), (8, b"E19 memory\n"), gigabyte),
    ):
        with Folder(options.program) as folder:
            folder.put({SOURCE: text, CERT: OLD})
            answer = folder.asked("analyse", SOURCE, CERT, shell=shell)
            faults = [] if (answer.status, answer.out) == wanted else [f"in place of {wanted}"]
            faults += [] if answer.status < 2 or not answer.changed else ["changes a file"]
            tally.add(answer, faults, {SOURCE: text}, kind)
            tally.notes.append(f"{kind}: {len(text)} bytes of source, {answer.seconds:.1f} seconds")
            tally.step()
    return tally


def large(options):
    for part in (certificates, endless, demanding):
        yield part(options)
