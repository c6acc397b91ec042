"""How a search for one heap more than a partial certificate of the atlas ends, by the reason's words."""

from __future__ import annotations

from certificate_lines import LARGEST_PART

MOST_ELEMENTS = 64
LAST, FOUND = "last heap", "found"
ENDS = {
    "too large": f"there are more than {MOST_ELEMENTS} elements",
    "work": "the search reached the bound on its work",
    "repairs": "the search reached the bound on its repairs, or had none",
    LAST: f"not looked for: a partial certificate has at most {LARGEST_PART:,} heaps",
    FOUND: "FOUND: the atlas doesn't reach furthest",
}
