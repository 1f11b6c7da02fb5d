"""A search for input files on which a run of a program meets the fault of an alarm.

Nothing of it is proved. `tokens`, `layout` and `statements` read a source that the program takes, `fields` writes
contents of items, `model` says what a program's files are made of, `probes` makes a copy of the source that shows where
a run goes, `hints` reads what it compared, `makers` makes files, `runs` starts runs, `known` has what was learned of
them, `search` looks, `shrink` makes small what was found, `growth` says how many additions fill an item, `looking` goes
from a source to its results, `kept` writes these, `told` tells them, and `main` is the command.
"""
