"""The values of tools/evaluator.py, and the kit's words on them.

A number or an integer is an int, and a Bool a bool. A list is a cell `(first, rest)`, or None where it is empty. What a
constructor makes is a tuple that begins with its name, a record a dict, a tuple of the language a Tup, and a function
an Fn. A type that stands in a fact is like what a constructor makes."""


class Unknown(Exception):
    """What the evaluator can't tell."""


class Fn:
    """A function of n arguments, of which it has some."""

    __slots__ = ("n", "code", "given")

    def __init__(self, n, code, given=()):
        self.n, self.code, self.given = n, code, given


class Tup(tuple):
    """A tuple of the language."""

    __slots__ = ()


NONE = ("None",)


def some(value):
    return ("Some", value)


def apply(function, *given):
    """Applies a function, or adds what a constructor holds."""
    while given:
        if type(function) is tuple:
            return function + given
        if type(function) is not Fn:
            raise Unknown(f"applied: {function!r}")
        missing = function.n - len(function.given)
        if len(given) < missing:
            return Fn(function.n, function.code, function.given + given)
        function, given = function.code(*function.given, *given[:missing]), given[missing:]
    return function


# Lists.


def as_list(items, rest=None):
    for item in reversed(items):
        rest = (item, rest)
    return rest


def items_of(cells):
    while cells is not None:
        yield cells[0]
        cells = cells[1]


def joined(one, other):
    return other if one is None else as_list(list(items_of(one)), other)


def take(n, cells):
    found = []
    while n > 0 and cells is not None:
        found.append(cells[0])
        n, cells = n - 1, cells[1]
    return as_list(found)


def drop(n, cells):
    while n > 0 and cells is not None:
        n, cells = n - 1, cells[1]
    return cells


def length(cells):
    return sum(1 for _ in items_of(cells))


def item_or(cells, i, other):
    cells = drop(i, cells)
    return other if cells is None else cells[0]


def item_at(cells, i):
    cells = drop(i, cells)
    return NONE if cells is None else some(cells[0])


def with_item(cells, i, value):
    before = []
    while cells is not None:
        if i == 0:
            return as_list(before, (value, cells[1]))
        before.append(cells[0])
        i, cells = i - 1, cells[1]
    return as_list(before)


def first_where(test, cells):
    return next((some(item) for item in items_of(cells) if apply(test, item)), NONE)


def looked_up(test, cells):
    return next((some(item[1]) for item in items_of(cells) if apply(test, item[0])), NONE)


def fold(step, value, cells):
    for item in items_of(cells):
        value = apply(step, value, item)
    return value


def flat_map(made, cells):
    return as_list([item for each in items_of(cells) for item in items_of(apply(made, each))])


def filter_map(made, cells):
    found = [apply(made, item) for item in items_of(cells)]
    return as_list([it[1] for it in found if it[0] == "Some"])


def pointwise(test, one, other):
    while one is not None and other is not None:
        if not apply(test, one[0], other[0]):
            return False
        one, other = one[1], other[1]
    return one is None and other is None


# Numbers.


def less(a, b):
    return a - b if a > b else 0


def quotient(a, b):
    return a // b if b else 0


def remainder(a, b):
    return a % b if b else a


def power(a, b):
    if b > 200000:
        raise Unknown("a power")
    return a**b


def integer_quotient(a, b):
    q = abs(a) // abs(b) if b else 0
    return q if (a < 0) == (b < 0) else -q


def integer_remainder(a, b):
    r = abs(a) % abs(b) if b else abs(a)
    return -r if a < 0 else r


def digits(base, upper, n):
    found = []
    while n > 0 and base > 1 and len(found) < 64:
        digit = n % base
        found.append(48 + digit if digit < 10 else (55 if upper else 87) + digit)
        n //= base
    return as_list(found[::-1] or [48])


# Tuples.


def component(value, i):
    """Returns a component of a tuple, whose last one may be a tuple in turn."""
    while i >= len(value):
        i, value = i - len(value) + 1, value[-1]
    return value[i]


def components_from(value, i):
    return value[i] if i == len(value) - 1 else Tup(value[i:])


def flat(value):
    while value and type(value[-1]) is Tup:
        value = Tup(value[:-1] + value[-1])
    return value


def parts(one, other):
    """Returns the pairs of parts of two values that have to be the same, or None where the two differ."""
    kind = type(one)
    if kind is not type(other):
        return None
    if kind is dict:
        return [(one[name], other[name]) for name in one] if one.keys() == other.keys() else None
    if kind is Fn:
        if one.n != other.n or one.code is not other.code:
            raise Unknown("functions compared")
        one, other = one.given, other.given
    elif kind is Tup:
        one, other = flat(one), flat(other)
    elif kind is not tuple:
        return [] if one == other else None
    return list(zip(one, other)) if len(one) == len(other) else None


def are_same(one, other):
    waiting = [(one, other)]
    while waiting:
        one, other = waiting.pop()
        if one is not other:
            pairs = parts(one, other)
            if pairs is None:
                return False
            waiting += pairs
    return True


# The kit's words: of how many arguments, and what they give.
WORDS = {
    "map": (2, lambda f, cells: as_list([apply(f, it) for it in items_of(cells)])),
    "filter": (2, lambda f, cells: as_list([it for it in items_of(cells) if apply(f, it)])),
    "sum_by": (2, lambda f, cells: sum(apply(f, it) for it in items_of(cells))),
    "list_any": (2, lambda f, cells: any(apply(f, it) for it in items_of(cells))),
    "list_all": (2, lambda f, cells: all(apply(f, it) for it in items_of(cells))),
    "reverse": (1, lambda cells: as_list(list(items_of(cells))[::-1])),
    "replicate": (2, lambda n, value: as_list([value] * n)),
    "range_with_len": (2, lambda start, n: as_list(list(range(start, start + n)))),
    "zip": (2, lambda a, b: as_list([Tup(it) for it in zip(items_of(a), items_of(b))])),
    "filter_map": (2, filter_map),
    "flat_map": (2, flat_map),
    "fold": (3, fold),
    "length": (1, length),
    "take": (2, take),
    "drop": (2, drop),
    "find": (2, first_where),
    "lookup": (2, looked_up),
    "pointwise": (3, pointwise),
    "slice_get": (2, item_at),
    "slice_index": (2, lambda cells, i: item_or(cells, i, 0)),
    "slice_index_or": (3, item_or),
    "get_or": (3, item_or),
    "slice_set": (3, with_item),
    "is_some": (1, lambda it: it[0] == "Some"),
    "is_none": (1, lambda it: it[0] == "None"),
    "unwrap_or": (2, lambda it, other: it[1] if it[0] == "Some" else other),
    "option_map": (2, lambda f, it: some(apply(f, it[1])) if it[0] == "Some" else it),
    "option_and_then": (2, lambda f, it: apply(f, it[1]) if it[0] == "Some" else it),
    "option_or": (2, lambda it, other: it if it[0] == "Some" else other),
    "nat_eq": (2, lambda a, b: a == b),
    "nat_lt": (2, lambda a, b: a < b),
    "nat_le": (2, lambda a, b: a <= b),
    "int_lt": (2, lambda a, b: a < b),
    "int_le": (2, lambda a, b: a <= b),
    "int_div": (2, integer_quotient),
    "int_rem": (2, integer_remainder),
    "int_rem_euclid": (2, lambda a, b: a % abs(b)),
    "bit_and": (2, lambda a, b: a & b),
    "bit_or": (2, lambda a, b: a | b),
    "unsigned_abs": (1, abs),
    "nat_abs": (1, abs),
    "neg_ℤ": (1, lambda a: -a),
    "pos": (1, lambda a: a),
    "min": (2, min),
    "max": (2, max),
    "not": (1, lambda it: not it),
    "suc": (1, lambda n: n + 1),
    "digits": (3, digits),
    "decimal": (1, lambda n: digits(10, False, n)),
    "is_ascii_alphabetic": (1, lambda b: 65 <= b <= 90 or 97 <= b <= 122),
    "is_ascii_alphanumeric": (1, lambda b: 48 <= b <= 57 or 65 <= b <= 90 or 97 <= b <= 122),
    "codes": (1, lambda text: text),
}

# The code in Python of an operator. Those of types stay as they are.
OPERATORS = {
    "+": "({} + {})",
    "-": "less({}, {})",
    "-ℤ": "({} - {})",
    "*": "({} * {})",
    "/": "quotient({}, {})",
    "%": "remainder({}, {})",
    "^": "power({}, {})",
    "==": "({} == {})",
    "&&": "({} and {})",
    "||": "({} or {})",
    "++": "joined({}, {})",
    "∷": "({}, {})",
} | {word: f"('{word}', {{}}, {{}})" for word in "≡ ≢ ≤ < × ⊎ →".split()}
# The same for the kit's shortest words.
SHORT = {
    "nat_eq": "({} == {})",
    "nat_lt": "({} < {})",
    "nat_le": "({} <= {})",
    "int_lt": "({} < {})",
    "int_le": "({} <= {})",
    "not": "(not {})",
    "suc": "({} + 1)",
    "pos": "{}",
    "codes": "{}",
}
