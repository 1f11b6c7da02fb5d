"""A report on many sources, around the program's commands `analyse` and `check`.

Nothing of it is proved: it shows what the program answered. `options` reads the command line (`command_line` is what
all tools share of that), `sources` finds sources and reads them, `answers` takes an answer strictly, `program` asks for
it, `findings` says what there is to tell in the words that `words` has of docs/GUIDE.md, `history` compares with an
earlier report, `outputs` writes without replacing a source, `text`, `as_json`, `sarif`, `github`, `junit` and `pages`
are the forms of a report, and `main` is the command.

`prepared` has sources prepared before the program reads them, by `cobsound_prepare`, and then says where what is told
of them stands in their own files.

What the tool itself sees in a source: `scan` has its tokens with their places, `forms` guesses in which form it is
written, `declared` knows what it declares, `profile` and `shapes` find what isn't in the profile by PROFILE.md,
`missing` and `undeclared` what there isn't, `remarks` puts this together, and `causes` says which of it the program's
answer means. `explain` tells a rule by an example.

Beside other days, machines and tools: `baseline` has what is known, `suppressions` what the shop lets stand, `shards`
puts parts together, and `witnesses` knows what a search for input files left.
"""

import pathlib

ROOT = pathlib.Path(__file__).resolve().parents[2]
VERSION = (ROOT / "VERSION").read_text("ascii").strip()
