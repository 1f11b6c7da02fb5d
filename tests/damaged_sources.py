"""Damaged sources through `tools/cobsound-prepare`: each is prepared, or told with its place, and nothing else happens.

`python3 -m tests.damaged_sources COUNT` tries so many, on all processors; the fast run tries a few hundred. The sources
that are damaged are those of the other cases; words of COBOL are put in, bytes and lines taken out, doubled, changed,
moved, and parts of others joined to them. Each source is made from its number, which is told where it fails.
"""

import itertools
import os
import pathlib
import random
import sys
import tempfile
import traceback
from concurrent.futures import ProcessPoolExecutor

from tests.prepare import REWRITINGS, encoded, prepare, rows, source_of
from tests.prepare_texts import COPIES, FORMS, laid

from cobsound_prepare.places import Map
from cobsound_prepare.tokens import SourceError
from cobsound_prepare.untaken import untaken

FEW = 300
READ_EACH = 8  # so many are also read for what isn't taken
CHUNK = 500
MOST_TOLD = 20

WHOLE = [source_of(row).encode() for _, row in rows()]
WHOLE += [source.encode() for source, _ in FORMS.values()]
WHOLE += [COPIES["pay.cob"].encode()] * 20
WORDS = sorted(set().union(*(rewriting.words for rewriting in REWRITINGS)))
WORDS += "COPY REPLACE REPLACING BY == ==. OFF LEADING :TAG: PIC IS PICTURE SECTION DIVISION DATA 78 VALUE OF".split()
WORDS += "IN X'41' X'4 ' \" *> >>IF . , ( ) LIMITS RATES é EXEC END-EXEC".split()
WORDS += ["\t", "\n      -", "\n      D", "\n", "\n      $SET", "\n      >>D ", "\n      >>SOURCE FREE\n", "\n      $IF"]


def damaged(number):
    """The source of a number."""
    chance = random.Random(number)
    source = bytearray(chance.choice(WHOLE))
    for _ in range(chance.choice((1, 1, 2, 3, 8))):
        at = chance.randrange(len(source) + 1)
        end = min(len(source), at + chance.choice((1, 1, 3, 20, 200)))
        kind = chance.randrange(8)
        if kind == 0:
            del source[at:end]
        elif kind == 1:
            source[at:at] = source[at:end]
        elif kind == 2:
            source[at:end] = bytes(chance.randrange(256) for _ in range(end - at))
        elif kind == 3:
            other = chance.choice(WHOLE)
            source[at:end] = other[chance.randrange(len(other)) :]
        elif kind == 4:
            lines = bytes(source).split(b"\n")
            chance.shuffle(lines)
            source = bytearray(b"\n".join(lines))
        else:
            source[at:at] = f" {chance.choice(WORDS)} ".encode()
    text = bytes(source)
    return text.decode("latin-1").encode("cp1140", "replace") if chance.random() < 0.05 else text


def fault(number, folder):
    """What goes wrong with the source of a number: nothing, if all is right."""
    path = pathlib.Path(folder, "s.cob")
    path.write_bytes(damaged(number))
    try:
        found = prepare(str(path), [os.path.join(folder, "books")])
        encoded(found.text)
        for note in (*found.notes, *(untaken(found) if number % READ_EACH == 0 else ())):
            str(note)
        if Map.read(found.map.as_json()) != found.map:
            return f"damaged source {number}: the map isn't what is written"
        if len(found.map.lines) != found.text.count("\n"):
            return f"damaged source {number}: a line of the prepared source has no place"
    except SourceError as error:
        return None if str(error).startswith(folder) else f"damaged source {number}: no place in {error}"
    except Exception:
        return f"damaged source {number}: {traceback.format_exc()}"
    return None


def faults(numbers):
    with tempfile.TemporaryDirectory() as folder:
        laid(folder, COPIES)
        return [told for number in numbers if (told := fault(number, folder))]


def checks():
    def of_a_few():
        found = faults(range(FEW))
        return found[0] if found else None

    yield of_a_few


def main():
    count = int(sys.argv[1]) if len(sys.argv) > 1 else FEW
    chunks = [range(first, min(first + CHUNK, count)) for first in range(0, count, CHUNK)]
    found = 0
    with ProcessPoolExecutor(os.cpu_count()) as pool:
        for told in itertools.chain.from_iterable(pool.map(faults, chunks)):
            found += 1
            if found <= MOST_TOLD:
                print(told, flush=True)
    print(f"{count} damaged sources, {found} faults")
    return 1 if found else 0


if __name__ == "__main__":
    sys.exit(main())
