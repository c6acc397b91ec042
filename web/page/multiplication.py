"""How the page holds the products of a certificate: what the laws and the numbering by least keys leave open.

Element 0 is the identity, 1 to some number are those of heaps, and each other one is the product of a smaller element
and one of a heap: its key. The keys rise. So, going through the elements and for each through those of heaps, a product
is known already, or is the next element, or is an earlier one, which has to be told. multiplication.js reads this.
"""


def known_of(rows, keys, x, g):
    """The product of x and g, where it follows from those before it."""
    if x == 0:
        return g
    if x <= len(rows):
        return rows[x].get(g)
    smaller, last = keys[x]
    return rows[last].get(rows[g][smaller])


def told_of(firsts):
    """What isn't known, of the rows of the elements of heaps: 0 for the next element, else one more than the product.
    """
    rows, keys, told = {g: {} for g in range(1, len(firsts) + 1)}, {}, []
    following = len(firsts) + 1
    for x in range(len(firsts[0]) if firsts else 0):
        for g, row in enumerate(firsts, 1):
            if known_of(rows, keys, x, g) is None:
                told.append(0 if row[x] == following else row[x] + 1)
            if row[x] == following:
                keys[following] = (x, g)
                following += 1
            rows[g][x] = row[x]
    return told
