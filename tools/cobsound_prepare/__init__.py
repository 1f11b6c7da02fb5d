"""Makes sources of shops ready for the program: copybooks in their places, other forms in fixed form, and what the
program doesn't read rewritten where the meaning stays."""

from .preparing import Prepared, encoded, prepare

__all__ = ["Prepared", "encoded", "prepare"]
