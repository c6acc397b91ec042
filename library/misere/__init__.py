"""Certified misère quotients of octal and hexadecimal games, by the proved library libmisere.

    import misere
    q = misere.solve("0.33")               # or misere.check(pathlib.Path("0.33.mqc"))
    q.code, q.order, q.start, q.period     # '0.33', 6, 1, 3
    q.outcome([2, 10**12])                 # 'N': the next player wins under misère play
    q.value([2, 10**12])                   # the element of the quotient
    q.winning_move([2, 10**12])            # Move(heap=2, left=()): take the heap 2 whole; or None
    q.table[2][3], q.phi(10**18), q.portion
    print(q.describe())                    # generators and relations, as the literature prints them
    q.tame, q.isomorphic(misere.solve("0.3"))  # 2, since it is T_2, one of Nim's; False
    q.apart([2], [1, 2, 2])                # Apart((1,), ('N', 'P')): what tells two positions apart; or None
    misere.Catalogue()["Kayles"]           # that of the atlas, by its code or its name
    misere.certify("0.1", [[0, 1], [1, 0]], heaps=[1, 0], portion=[1], period=1)  # one's own, in any numbering
    misere.check_infinite(pathlib.Path("0.354_heaps_5.mqp")).outcome([2, 4] + 7 * [5])  # 'P': no finite one says so
    misere.solve_infinite("0.26").outcome([2, 10**15])  # 'P', by a text of the whole game
    misere.check_infinite(pathlib.Path("0.404_heaps_12.mqp")).value([7])  # 'ab', by generators and relations

What outcome, value, answer and winning_move give is proved of every position, of any number of heaps of 1 to 10^18 (of
a partial certificate: of its heaps), and so is what outcomes, values and answers give of many. describe's text is
proved too. table, phi and portion are read off the certificate's text, which a yes makes the misère quotient; tame,
isomorphic and apart are computed of these by the module, and tested.

The library checks the certificate once, and keeps what it certifies as long as there is the quotient, or until it is
closed: q.close(), or `with misere.check(..) as q:`.

Whatever is raised is a MisereError, and a ValueError, TypeError, LookupError or MemoryError too; but an OSError of a file
that can't be read.

The library is looked for in this package, beside it, in the prefix into which it was installed, and where the system
has its libraries; MISERE_LIBRARY names another file. Nothing else is needed. Any number of threads may ask at once. The
child of a fork may go on asking, if the process had one thread alone.
"""

from ._answers import Answer, Apart, Move, Outcome, Triple
from ._asked import Given
from ._bounds import LIMIT
from ._catalogue import Catalogue, InfiniteCatalogue
from ._faults import (
    Absent,
    Beyond,
    MisereError,
    NoMemory,
    NotACode,
    NotAHeap,
    NotDescribed,
    NotFound,
    NotInRange,
    NotOpen,
    Refused,
    WrongType,
)
from ._finder import (
    certify,
    check,
    check_infinite,
    series,
    solve,
    solve_any,
    solve_furthest,
    solve_infinite,
    solve_part,
    verify,
)
from ._infinite import InfiniteOutput, InfiniteQuotient
from ._library import version
from ._names import NAMES
from ._quotient import Output, Quotient
from ._version import VERSION as __version__

__all__ = [
    "LIMIT",
    "NAMES",
    "Absent",
    "Answer",
    "Apart",
    "Beyond",
    "Catalogue",
    "Given",
    "InfiniteCatalogue",
    "InfiniteOutput",
    "InfiniteQuotient",
    "MisereError",
    "Move",
    "NoMemory",
    "NotACode",
    "NotAHeap",
    "NotDescribed",
    "NotFound",
    "NotInRange",
    "NotOpen",
    "Outcome",
    "Output",
    "Quotient",
    "Refused",
    "Triple",
    "WrongType",
    "__version__",
    "certify",
    "check",
    "check_infinite",
    "series",
    "solve",
    "solve_any",
    "solve_furthest",
    "solve_infinite",
    "solve_part",
    "verify",
    "version",
]
