"""The bounds of the calls, of which each has its one place in Python here. `scripts/calls_stand` compares them with the
crates'."""

from __future__ import annotations

from typing import Final

#: What the closure of a check may keep, where nobody asks for more or less, and at most in a search.
LIMIT: Final = 100_000
LARGEST_LIMIT: Final = 1_000_000
#: How often a search guesses, where nobody asks for more or less, and at most.
ROUNDS: Final = 64
MOST_ROUNDS: Final = 1000
#: How many heaps a search for a whole quotient looks at, where nobody asks for more or less, and at most: the certificate
#: of an octal code can need no more. Few are these at most.
HEAPS: Final = 24
FEW_HEAPS: Final = 64
MOST_HEAPS: Final = 8210
#: The most elements of a quotient that is sought, where nobody asks for more or less, as of a part; of a whole one by few
#: heaps, and of a deep search where nobody asks for more; and of any.
ELEMENTS: Final = 64
PART_ELEMENTS: Final = 512
MOST_BY_FEW: Final = 256
MOST_ELEMENTS: Final = 4096
#: The largest last heap of a part that is sought.
MOST_PART: Final = 1024
#: The last heap up to which a search for an infinite quotient goes, where nobody asks for more or less.
INFINITE_HEAPS: Final = 64
#: As many bytes are room for any certificate.
MOST_BYTES: Final = 1 << 22
#: The largest heap.
LARGEST_HEAP: Final = 10**18
