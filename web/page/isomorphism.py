"""Which bipartite monoids are isomorphic: by a bijection of the elements that keeps the products and the portion.

    classes_of([(rows, portion), ..])   the number of the class of each, classes being numbered in their order

It is a search that colours cut short. Nothing of it is proved.
"""
from operator import mul

# Colours have so many bits, so that sums of their products stay short.
BITS = (1 << 30) - 1


def colours_of(rows, portion):
    """A colour for each element, which isomorphisms keep: refined by its products until no colour splits. (Which other
    elements lead to which products is a sum, since their order is no matter. Two sums may be the same by chance: then a
    colour doesn't split, and the search takes longer.)"""
    elements = range(len(rows))
    colours = [hash((x in portion, rows[x][x] == x, x == 0)) & BITS for x in elements]
    kinds = len(set(colours))
    while True:
        mixed = [hash((colour,)) & BITS for colour in colours]
        products = [sum(map(mul, colours, map(mixed.__getitem__, row))) for row in rows]
        colours = [hash((colours[x], products[x])) & BITS for x in elements]
        if len(set(colours)) == kinds:
            return colours
        kinds = len(set(colours))


def generators_of(rows):
    """Elements that generate all: in their order, each that those before it don't."""
    found, made = [], {0}
    for x in range(len(rows)):
        if x in made:
            continue
        found.append(x)
        todo = [x, *made]
        while todo:
            y = todo.pop()
            made.add(y)
            todo += [z for z in (rows[y][g] for g in found) if z not in made and z not in todo]
    return found


def extended(one, other, images):
    """The map that images of some elements give on all that these generate, or None where it keeps no products."""
    known, todo = {0: 0, **images}, [0, *images]
    while todo:
        x = todo.pop()
        for g, to in images.items():
            product, image = one[x][g], other[known[x]][to]
            if product not in known:
                known[product] = image
                todo.append(product)
            elif known[product] != image:
                return None
    return known


def is_isomorphic(one, other):
    """Whether some bijection keeps the products and the portion. Each is (rows, portion, colours)."""
    rows, portion, colours = one
    others = {}
    for y, colour in enumerate(other[2]):
        others.setdefault(colour, []).append(y)
    generators = generators_of(rows)

    def found(images):
        known = extended(rows, other[0], images)
        if known is None or len(set(known.values())) < len(known):
            return False
        if any((x in portion) != (y in other[1]) for x, y in known.items()):
            return False
        if len(images) == len(generators):
            return len(known) == len(rows)
        g = generators[len(images)]
        return any(found({**images, g: y}) for y in others.get(colours[g], []))

    return found({})


def classes_of(monoids):
    known, numbers = {}, []
    count = 0
    for rows, portion in monoids:
        portion = set(portion)
        own = (rows, portion, colours_of(rows, portion))
        alike = known.setdefault((len(rows), len(portion), tuple(sorted(own[2]))), [])
        number = next((number for it, number in alike if is_isomorphic(own, it)), None)
        if number is None:
            number, count = count, count + 1
            alike.append((own, number))
        numbers.append(number)
    return numbers
