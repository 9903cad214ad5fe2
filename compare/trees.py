"""Trees of values of every kind, for `compare/json`.

A tree is a list of the name of its variant and what that holds: `["Bool", True]`, `["U64", "7"]`, `["Bytes", [1, 2]]`,
`["Some", TREE]`, `["UnitVariant", "N", 0, "V"]`, `["Seq", [TREE, ..]]`, `["Map", [[KEY, TREE], ..]]`, `["Struct", "N", [["f", TREE], ..]]`.
"""
import itertools
import json
import random

WHOLE = {f"{sign}{bits}": (sign, bits) for sign in "UI" for bits in (8, 16, 32, 64, 128)}
WRAPPERS = ("Some", "NewtypeStruct", "NewtypeVariant")
LISTS = ("Seq", "Tuple", "TupleStruct", "TupleVariant")
RECORDS = ("Struct", "StructVariant")
# Characters that are escaped, that are wide or at a bound of their encoding, and that other writers escape.
CHARACTERS = "ab z\"\\/\b\t\n\f\r\0\x01\x1b\x1f\x7f\x80\x85\xa0é中\u2028\u2029\ud7ff\ue000\ufeff\uffff\U00010000\U0001f600\U0010ffff{}[]:,0'<"
NAMES = ["a", "key", "", "two words", "é", "V\"", "line\nend", "\x02", "中文"]
ONE = ["U8", "1"]
# A key of each kind that JSON refuses.
REFUSED = [["Bool", True], ["Char", "c"], ["Bytes", [1]], ["None"], ["Unit"], ["UnitStruct", "N"]]
REFUSED += [["Seq", []], ["Tuple", [ONE]], ["TupleStruct", "N", []], ["TupleVariant", "N", 0, "V", []]]
REFUSED += [["Map", []], ["Struct", "N", []], ["StructVariant", "N", 0, "V", []]]
# The most characters of a single line.
MOST = 120


class Refused(Exception):
    """A key that JSON refuses."""


def resolved(tree):
    while tree[0] in WRAPPERS:
        tree = tree[-1]
    return tree


def key_text(key):
    """The text of a key of a map."""
    key = resolved(key)
    if key[0] in ("String", "UnitVariant") or key[0] in WHOLE:
        return key[-1]
    raise Refused


def meaning(tree):
    """What a reader finds in the text of a tree: numbers by their digits, and objects as their pairs in order."""
    kind, last = tree[0], tree[-1]
    if kind in WHOLE:
        return ("number", last)
    if kind in ("None", "Unit", "UnitStruct"):
        return None
    if kind in ("Some", "NewtypeStruct"):
        return meaning(last)
    if kind == "Bytes":
        found = [("number", str(byte)) for byte in last]
    elif kind in LISTS:
        found = [meaning(item) for item in last]
    elif kind == "Map":
        found = ("object", [(key_text(key), meaning(value)) for key, value in last])
    elif kind in RECORDS:
        found = ("object", [(name, meaning(value)) for name, value in last])
    else:
        found = meaning(last) if kind == "NewtypeVariant" else last
    is_object = kind in ("NewtypeVariant", "TupleVariant", "StructVariant")
    return ("object", [(tree[3], found)]) if is_object else found


def read(text):
    """What Python's reader finds in a text."""
    return json.loads(text, object_pairs_hook=lambda pairs: ("object", pairs), parse_int=lambda digits: ("number", digits))


def length(found):
    """How many characters a single line has for what a reader finds."""
    if isinstance(found, tuple) and found[0] == "number":
        return len(found[1])
    if isinstance(found, tuple):
        return 2 + sum(length(name) + 2 + length(value) for name, value in found[1]) + 2 * max(0, len(found[1]) - 1)
    if isinstance(found, list):
        return 2 + sum(map(length, found)) + 2 * max(0, len(found) - 1)
    return len(json.dumps(found, ensure_ascii=False))


def filled(make, filler, size):
    """A tree whose single line has so many characters, made of a text of so many fillers; none where it has more without any."""
    count = size - length(meaning(make("")))
    return make(filler * count) if count >= 0 else None


def lines():
    """Single lines about the length from which on a text is laid out otherwise."""
    makers = [
        lambda text: ["String", text],
        lambda text: ["Seq", [["String", text]]],
        lambda text: ["Map", [[["String", text], ONE]]],
        lambda text: ["Struct", "N", [["a\nb", ["String", text]], ["c", ["Bytes", [0, 10, 255]]]]],
        lambda text: ["TupleVariant", "N", 0, "\x01", [["Map", []], ["Char", "é"], ["UnitVariant", "N", 1, text], ["Seq", []]]],
    ]
    for make, filler, size in itertools.product(makers, "xé中\U0001f600", (MOST, MOST + 1)):
        yield filled(make, filler, size)
    for size in (MOST - 1, MOST + 2):
        yield from (filled(make, "x", size) for make in makers)
    yield from (["Seq", [["Bool", True]] * count] for count in (19, 20, 21))
    yield from (["Bytes", [255] * count] for count in (23, 24, 25))


def numbers():
    """Whole numbers at the bounds of their kinds, and within."""
    for kind, (sign, bits) in WHOLE.items():
        least, most = (0, 2**bits - 1) if sign == "U" else (-(2 ** (bits - 1)), 2 ** (bits - 1) - 1)
        yield from ([kind, str(number)] for number in sorted({least, 10, most, -1 if least else 9}))


def scalars():
    """Values that hold no other, among them each character that is escaped."""
    yield from (["Bool", True], ["Bool", False], ["None"], ["Unit"], ["UnitStruct", "N"], ["UnitVariant", "N", 4294967295, "a\"b"])
    yield from numbers()
    characters = sorted({*map(chr, range(33)), *CHARACTERS})
    yield from (["Char", character] for character in characters)
    yield from (["String", text] for text in ("", "".join(characters), "\\u0041\\n", " a ", "e\u0301", "\na\n\n", "x" * 300))
    yield from (["Bytes", []], ["Bytes", [0]], ["Bytes", list(range(256))])


def collections():
    """Collections of each kind, empty ones, with one element and with two, and alone in a wrapper."""
    for items in ([], [ONE], [["Seq", []], ["Map", []]]):
        fields = [["f", item] for item in items]
        yield from (["Seq", items], ["Tuple", items], ["TupleStruct", "N", items], ["TupleVariant", "N", 1, "V", items])
        yield from (["Map", [[["String", "f"], item] for item in items]], ["Struct", "N", fields], ["StructVariant", "N", 2, "V", fields])
    yield from (["Some", ["None"]], ["NewtypeStruct", "N", ["Seq", [ONE]]], ["NewtypeVariant", "N", 0, "V", ["NewtypeVariant", "N", 1, "", ["Unit"]]])


def keys():
    """Maps with each kind of key, also inside wrappers and twice, and refused ones at each place."""
    accepted = [["String", ""], ["String", CHARACTERS], ["UnitVariant", "N", 0, "V\n"], *numbers()]
    yield from (["Map", [[key, ONE]]] for key in accepted)
    for key in (["String", "k"], ["UnitVariant", "N", 0, "V"], ["I8", "-1"], ["U128", "5"]):
        wrapped = ["Some", ["NewtypeStruct", "N", ["NewtypeVariant", "N", 0, "V", key]]]
        yield ["Map", [[wrapped, ["None"]], [key, ONE], [key, ["Seq", []]]]]
    yield from (["Map", [[key, ONE]]] for key in REFUSED)
    for key in (["Some", ["None"]], ["NewtypeStruct", "N", ["Char", "a"]]):
        yield ["Map", [[["String", "a"], ONE], [key, ONE]]]
        yield ["Seq", [ONE, ["Struct", "N", [["f", ["Map", [[key, ONE]]]]]]]]


def deep(levels):
    """A tree of so many levels, of each kind of collection in turn, with something after each."""
    tree = ["Seq", []]
    for level in range(levels):
        tree = [
            ["Seq", [tree, ONE]],
            ["Map", [[["U8", str(level)], tree], [["String", "k"], ["Map", []]]]],
            ["StructVariant", "N", 0, "V", [["f", tree], ["g", ONE]]],
            ["TupleVariant", "N", 0, "V", [tree, ["Bytes", [1, 2]]]],
            ["NewtypeVariant", "N", 0, "V", ["Some", tree]],
            ["Struct", "N", [["f", tree]]],
        ][level % 6]
    return tree


def stated():
    """The trees that are in each comparison."""
    return [*lines(), *scalars(), *collections(), *keys(), *map(deep, (2, 3, 4, 7, 30))]


def number(rng):
    kind = rng.choice(list(WHOLE))
    sign, bits = WHOLE[kind]
    least, most = (0, 2**bits - 1) if sign == "U" else (-(2 ** (bits - 1)), 2 ** (bits - 1) - 1)
    return [kind, str(rng.choice([least, most, least + 1, most - 1, 0, 1, 9, 10, rng.randint(least, most)]))]


def text(rng):
    if rng.random() < 0.5:
        return rng.choice(NAMES)
    return "".join(rng.choice(CHARACTERS) for _ in range(rng.choice([0, 1, 2, 5, 9, 30])))


def scalar(rng):
    makers = [
        lambda: ["Bool", rng.random() < 0.5],
        lambda: number(rng),
        lambda: number(rng),
        lambda: ["Char", rng.choice(CHARACTERS)],
        lambda: ["String", text(rng)],
        lambda: ["String", text(rng)],
        lambda: ["Bytes", [rng.randint(0, 255) for _ in range(rng.randint(0, 4))]],
        lambda: rng.choice([["None"], ["Unit"], ["UnitStruct", text(rng)]]),
        lambda: ["UnitVariant", text(rng), rng.randint(0, 9), text(rng)],
    ]
    return rng.choice(makers)()


def key(rng):
    """A key of a map, now and then one that JSON refuses."""
    inner = rng.choice([["String", text(rng)], ["String", text(rng)], ["UnitVariant", "E", 0, text(rng)], number(rng)])
    if rng.random() < 0.02:
        inner = rng.choice(REFUSED)
    while rng.random() < 0.15:
        inner = rng.choice([["Some", inner], ["NewtypeStruct", "N", inner], ["NewtypeVariant", "E", 0, "V", inner]])
    return inner


def random_tree(rng, depth):
    if depth == 0 or rng.random() < 0.2:
        return scalar(rng)
    size = rng.choice([0, 1, 2, 2, 3, 4])

    def items():
        return [random_tree(rng, depth - 1) for _ in range(size)]

    def fields():
        return [[text(rng), item] for item in items()]

    makers = [
        lambda: ["Some", random_tree(rng, depth - 1)],
        lambda: ["NewtypeStruct", text(rng), random_tree(rng, depth - 1)],
        lambda: ["NewtypeVariant", text(rng), 0, text(rng), random_tree(rng, depth - 1)],
        lambda: ["Seq", items()],
        lambda: ["Tuple", items()],
        lambda: ["TupleStruct", text(rng), items()],
        lambda: ["TupleVariant", text(rng), 1, text(rng), items()],
        lambda: ["Map", [[key(rng), item] for item in items()]],
        lambda: ["Map", [[key(rng), item] for item in items()]],
        lambda: ["Struct", text(rng), fields()],
        lambda: ["StructVariant", text(rng), 2, text(rng), fields()],
    ]
    return rng.choice(makers)()


def near_the_most(rng, found):
    """A tree beside a text, so that its single line has about the most characters, where it has few enough."""
    try:
        padded = filled(lambda text: ["Seq", [found, ["String", text]]], rng.choice("xé中\U0001f600"), MOST + rng.choice([-1, 0, 1, 2]))
    except Refused:
        padded = None
    return padded or found


def random_trees(seed):
    """Random trees without end, a fifth of them about the length that is told apart."""
    rng = random.Random(seed)
    while True:
        found = random_tree(rng, rng.choice([1, 2, 3, 4, 5]))
        yield near_the_most(rng, found) if rng.random() < 0.2 else found
