"""Values of definitions, and what is given of the kit's library in place of its own text.

A number is Python's; a truth value is YES or NO, and not Python's, of which True is equal to 1; a text of characters is Python's text; a tuple is
Python's. `[]` is None and `x ∷ xs` a `Cell`, which
knows its length. A constructor with its arguments is a `Constructed`, and a record is of a class by its labels. Equal cells, constructors and
records are kept once each, so a call is told from others by the identities of its arguments (see `code`); of a long list that grew at its end there may
be two, and a call is then computed twice. A function is called with one argument after another.

What is given here is trusted to be what the kit has under the same name. Numbers, their tests (`nat_eq`, `nat_lt`, `nat_le`, `==`) and `codes`
are native in the kit, too. Of truth values (`not`, `cond`, `&&`, `||`) and lists (`++`, `length`, `get_or`, `take`, `drop`, `set`, `replicate`, `map`,
`reverse`) the kit has a text, with which `tools/define_check` compares them on small values. Statements about values (`≤`, `≡`, `×`, `→`) are tests.
"""


# (of two texts of bytes an empty one is false where Python tests it)
YES, NO = b"true", b""


class Cell:
    __slots__ = ("head", "tail", "size")


class Joined(Cell):
    """A long list with a few items behind it, as one that grows item by item: its cells are made where its head or its tail is asked for."""
    __slots__ = ("front", "back")

    def __getattr__(self, name):
        if name not in ("head", "tail"):
            raise AttributeError(name)
        whole = onto(items(self.front), self.back)
        self.head, self.tail = whole.head, whole.tail
        return getattr(self, name)


class Constructed:
    """A constructor with those arguments that it was given so far."""
    __slots__ = ("name", "arguments")

    def __call__(self, argument):
        return constructed(self.name, *self.arguments, argument)


class Record:
    """A record; there is a class for each list of labels."""
    __slots__ = ()


CELLS, JOINED, CONSTRUCTED, ALONE, RECORDS, CHANGERS = {}, {}, {}, {}, {}, {}
# the items of a list from which on it may be joined
LONG = 100


def cons(head, tail):
    key = (head, tail)
    if key in CELLS:
        return CELLS[key]
    cell = CELLS[key] = Cell()
    cell.head, cell.tail, cell.size = head, tail, 1 if tail is None else tail.size + 1
    return cell


def onto(heads, tail):
    """The list of these, and then the tail."""
    for head in reversed(heads):
        tail = cons(head, tail)
    return tail


def items(cell):
    found, behind = [], []
    while cell is not None or behind:
        if cell is None:
            cell = behind.pop()
        elif type(cell) is Joined:
            behind.append(cell.back)
            cell = cell.front
        else:
            found.append(cell.head)
            cell = cell.tail
    return found


def constructed(name, *arguments):
    # (one without arguments is never forgotten, since functions name it)
    kept, key = (CONSTRUCTED, (name, *arguments)) if arguments else (ALONE, name)
    if key in kept:
        return kept[key]
    value = kept[key] = Constructed()
    value.name, value.arguments = name, arguments
    return value


def maker(labels):
    """The function that makes records of these labels, and keeps equal ones once."""
    if labels in RECORDS:
        return RECORDS[labels]
    kept, kind = {}, type("Record", (Record,), {"__slots__": labels, "labels": labels})
    sets = "; ".join(f"record.{label} = {label}" for label in labels) or "pass"
    source = f"""def make({', '.join(labels)}):
    key = ({''.join(f'{label}, ' for label in labels)})
    if key in kept:
        return kept[key]
    record = kept[key] = kind()
    {sets}
    return record"""
    room = {"kept": kept, "kind": kind}
    exec(source, room)
    room["make"].kept = kept
    RECORDS[labels] = room["make"]
    return room["make"]


def changed(record, labels, *values):
    """A record with other values of these labels."""
    key = (type(record), labels)
    if key not in CHANGERS:
        own = type(record).labels
        given = ", ".join(label if label in labels else f"record.{label}" for label in own)
        CHANGERS[key] = eval(f"lambda record, {', '.join(labels)}: make({given})", {"make": maker(own)})
    return CHANGERS[key](record, *values)


def forget():
    """Keeps no value any longer."""
    for kept in (CELLS, JOINED, CONSTRUCTED, *(make.kept for make in RECORDS.values())):
        kept.clear()


def kept_count():
    return len(CELLS) + len(JOINED) + len(CONSTRUCTED)


# ---- what is given


class Given:
    """Something of the library: how many arguments it takes, the Python term for them, and how it is written between two. A test gives what Python takes
    as a condition, and `of_tests` takes it."""

    def __init__(self, count, term, fixity=None, is_test=False, of_tests=False):
        self.count, self.term, self.fixity, self.is_test, self.of_tests = count, term, fixity, is_test, of_tests


def test(count, term, fixity=None, of_tests=False):
    return Given(count, term, fixity, True, of_tests)


def appended(front, back):
    if front is None or back is None or front.size < LONG or back.size > LONG:
        return front if back is None else onto(items(front), back)
    key = (front, back)
    if key not in JOINED:
        cell = JOINED[key] = Joined()
        cell.front, cell.back, cell.size = front, back, front.size + back.size
    return JOINED[key]


def get_or(cell, index, other):
    rest = drop(index, cell)
    return other if rest is None else rest.head


def take(count, cell):
    if cell is None or count >= cell.size:
        return cell
    found = []
    while len(found) < count:
        found.append(cell.head)
        cell = cell.tail
    return onto(found, None)


def drop(count, cell):
    if cell is None or count >= cell.size:
        return None
    for _ in range(count):
        cell = cell.tail
    return cell


def replaced(cell, index, value):
    if cell is None or index >= cell.size:
        return cell
    found = items(take(index, cell))
    return onto(found, cons(value, drop(index + 1, cell)))


def mapped(function, cell):
    return onto([function(item) for item in items(cell)], None)


def monus(one, other):
    return one - other if one > other else 0


def quotient(one, other):
    return one // other if other else 0


def remainder(one, other):
    return one % other if other else one


def length(cell):
    return 0 if cell is None else cell.size


def codes(text):
    return onto([ord(letter) for letter in text], None)


GIVEN = {
    "Prim.Native.Nat": {
        "zero": Given(0, "0"), "suc": Given(1, "({} + 1)"), "pred": Given(1, "monus({}, 1)"),
        "◌+◌": Given(2, "({} + {})", (65, "l")), "◌-◌": Given(2, "monus({}, {})", (65, "l")), "◌*◌": Given(2, "({} * {})", (70, "l")),
        "◌/◌": Given(2, "quotient({}, {})", (70, "l")), "◌%◌": Given(2, "remainder({}, {})", (70, "l")), "◌^◌": Given(2, "({} ** {})", (75, "r")),
        "min": Given(2, "min({}, {})"), "max": Given(2, "max({}, {})"),
        "◌≤◌": test(2, "({} <= {})", (50, "")), "◌<◌": test(2, "({} < {})", (50, "")),
    },
    "lib.Dec": {"eqb": test(2, "({} == {})"), "ltb": test(2, "({} < {})"), "leb": test(2, "({} <= {})")},
    "Rattle.core.specs.Bool": {"◌==◌": test(2, "({} == {})", (40, ""))},
    "mathlib.Core.Bool": {
        "true": Given(0, "YES"), "false": Given(0, "NO"), "not": test(1, "(not {})", None, True), "cond": Given(3, "({1} if {0} else {2})"),
        "◌&&◌": test(2, "({} and {})", (35, "l"), True), "◌||◌": test(2, "({} or {})", (30, "l"), True),
    },
    "mathlib.Core.List": {
        "[]": Given(0, "None"), "◌∷◌": Given(2, "cons({}, {})", (67, "r")), "◌++◌": Given(2, "appended({}, {})", (65, "l")),
        "map": Given(2, "mapped({}, {})"), "reverse": Given(1, "onto(items({})[::-1], None)"),
    },
    "lib.ListN": {
        "length": Given(1, "length({})"), "get_or": Given(3, "get_or({}, {}, {})"), "take": Given(2, "take({}, {})"),
        "drop": Given(2, "drop({}, {})"), "set": Given(3, "replaced({}, {}, {})"), "replicate": Given(2, "onto([{1}] * {0}, None)"),
    },
    "lib.Chars": {"codes": Given(1, "codes({})")},
    "mathlib.Core.Path": {"refl": Given(0, "None"), "◌≡◌": test(2, "({} == {})", (4, ""))},
    "logic": {
        "Unit": Given(0, "YES"), "⊥": Given(0, "NO"), "◌×◌": test(2, "({} and {})", (2, "r"), True), "◌→◌": test(2, "(not {} or {})", (1, "r"), True),
    },
}


def given():
    """What is given, by its module and its name."""
    return {(module, name): what for module, names in GIVEN.items() for name, what in names.items()}
