"""The rule for values, row by row as README.md has it, and the places that refusals name."""

import dataclasses
import datetime
import decimal
import enum
import json
import types
import unittest
from collections import OrderedDict, deque, namedtuple
from typing import Any, Generic, NamedTuple, TypeVar

from snap_testing import SORTED, Refused
from snap_testing.documents import Request, document, redactions_of, to_json


class Color(enum.Enum):
    RED = 1


class Level(enum.IntEnum):
    HIGH = 9


class Access(enum.Flag):
    READ = 1
    WRITE = 2


@dataclasses.dataclass
class Point:
    y: int
    x: float = 0.5


class Pair(NamedTuple):
    second: int
    first: int


class Order:
    def __init__(self) -> None:
        self.number = 7
        self._paid = Color.RED


class Slotted:
    __slots__ = ("size", "color", "__hidden")

    def __init__(self) -> None:
        self.size = 1
        self.__hidden = 2


class Boxed(Generic[TypeVar("Held")]):
    def __init__(self) -> None:
        self.held = None


class OwnError(Exception):
    pass


class Rule(unittest.TestCase):
    def check(self, value: Any, wanted: Any) -> None:
        """Compares JSON texts, so that 1 and true, and the order of keys, are told apart."""
        self.assertEqual(json.dumps(to_json(value)), json.dumps(wanted))

    def test_what_json_has_stays(self) -> None:
        for value in (None, True, False, 0, -7, "", "é 😀 \u2028\n", [], {}, "true", "1"):
            self.check(value, value)

    def test_whole_numbers_have_128_bits(self) -> None:
        for value in (2**128 - 1, -(2**127)):
            self.check(value, value)
        for value in (2**128, -(2**127) - 1, 10**5000):
            with self.assertRaisesRegex(Refused, r"^\.: a whole number of more than 128 bits; hand it over as a text"):
                to_json(value)

    def test_floats_are_their_shortest_texts(self) -> None:
        rows = [(1.0, "1.0"), (0.1, "0.1"), (-0.0, "-0.0"), (1e300, "1e+300"), (1e16, "1e+16"), (5e-324, "5e-324")]
        rows += [(float("nan"), "nan"), (float("inf"), "inf"), (float("-inf"), "-inf")]
        for value, wanted in rows:
            self.check(value, wanted)

    def test_a_kind_of_float_is_its_number(self) -> None:
        kind = type("Meters", (float,), {"__repr__": lambda self: "meters"})
        self.check(kind(2.5), "2.5")

    def test_dates_and_times_are_iso_texts(self) -> None:
        zone = datetime.timezone(datetime.timedelta(hours=2))
        self.check(datetime.date(2024, 2, 29), "2024-02-29")
        self.check(datetime.time(7, 5), "07:05:00")
        self.check(datetime.datetime(2024, 2, 29, 7, 5, 1, 250000, zone), "2024-02-29T07:05:01.250000+02:00")

    def test_bytes_are_base64(self) -> None:
        for value in (b"\xff\xfe\xfd", bytearray(b"\xff\xfe\xfd"), memoryview(b"\xff\xfe\xfd")):
            self.check(value, "//79")
        self.check(b"", "")
        self.check(b"a", "YQ==")

    def test_sets_are_sorted_by_json_texts(self) -> None:
        self.check({10, 9, 1}, [1, 10, 9])
        # A quote comes before a digit, a digit before a letter.
        self.check(frozenset([None, 5, "x", True]), ["x", 5, None, True])
        self.check({"b": 1, "a": 2}.keys(), ["a", "b"])

    def test_sequences_are_lists(self) -> None:
        for value in ((1, 2), [1, 2], deque([1, 2]), range(1, 3)):
            self.check(value, [1, 2])

    def test_maps_keep_their_order(self) -> None:
        for kind in (dict, OrderedDict, lambda pairs: types.MappingProxyType(dict(pairs))):
            self.check(kind([("b", 1), ("a", 2)]), {"b": 1, "a": 2})

    def test_objects_are_maps_of_their_fields(self) -> None:
        self.check(Point(2), {"y": 2, "x": "0.5"})
        self.check(Pair(1, 2), {"second": 1, "first": 2})
        self.check(namedtuple("Old", "b a")(1, 2), {"b": 1, "a": 2})
        self.check(Order(), {"number": 7, "_paid": "RED"})
        self.check(Boxed(), {"held": None})

    def test_slots_are_fields_where_they_are_set(self) -> None:
        self.check(Slotted(), {"size": 1, "_Slotted__hidden": 2})

    def test_enums_are_names(self) -> None:
        self.check([Color.RED, Level.HIGH, Access.WRITE], ["RED", "HIGH", "WRITE"])

    def test_keys_are_json_texts(self) -> None:
        keys = {1: "a", None: "b", False: "c", 2.5: "d", Color.RED: "e", (1, "x"): "f", b"a": "g", datetime.date(2024, 1, 2): "h"}
        wanted = {"1": "a", "null": "b", "false": "c", "2.5": "d", "RED": "e", '[1,"x"]': "f", "YQ==": "g", "2024-01-02": "h"}
        self.check(keys, wanted)

    def test_a_shared_list_is_written_twice(self) -> None:
        shared = [1]
        self.check([shared, shared], [[1], [1]])


class Places(unittest.TestCase):
    def check(self, value: Any, place: str, reason: str) -> None:
        with self.assertRaises(Refused) as caught:
            to_json(value)
        self.assertEqual(caught.exception.place, place)
        self.assertIn(reason, str(caught.exception))

    def test_a_type_without_a_rule_is_named(self) -> None:
        no_rule = [(decimal.Decimal(1), "decimal.Decimal"), (1j, "complex"), (object(), "object"), (int, "type"), (len, "builtin_function_or_method")]
        no_rule += [(iter([]), "list_iterator"), (json, "module"), (OwnError("x"), f"{__name__}.OwnError"), (datetime.timedelta(1), "datetime.timedelta")]
        no_rule += [(unittest.TestResult(), "unittest.result.TestResult"), (lambda: 1, "function"), (NotImplemented, "NotImplementedType")]
        for value, name in no_rule:
            self.check({"user": [0, {"made": value}]}, ".user[1].made", f".user[1].made: a value of the type {name}, which has no rule")

    def test_steps_are_written_as_selectors(self) -> None:
        self.check([1j], "[0]", "complex")
        self.check({"a b": {'q"\\': 1j}}, '["a b"]["q\\"\\\\"]', "complex")
        self.check({"": 1j}, '[""]', "complex")
        self.check({"été_2": {"2": 1j}}, '.été_2["2"]', "complex")
        self.check({"line\n": 1j}, '["line\n"]', "complex")
        self.check({"in": {1j}}, ".in[]", "complex")
        self.check([Point(1j)], "[0].y", "complex")

    def test_lone_surrogates(self) -> None:
        self.check({"a": ["x\ud800"]}, ".a[0]", "a text with a lone surrogate")
        self.check({"a": {"\udc00": 1}}, ".a", "a key can't be handed over: .: a text with a lone surrogate")

    def test_whole_numbers(self) -> None:
        self.check({"big": 2**128}, ".big", "a whole number of more than 128 bits")

    def test_keys(self) -> None:
        self.check({"a": {1: "x", "1": "y"}}, ".a", 'two keys have the text "1"')
        self.check({"a": {None: "x", "null": "y"}}, ".a", 'two keys have the text "null"')
        self.check([{1j: 1}], "[0]", "a key can't be handed over: .: a value of the type complex")

    def test_long_keys(self) -> None:
        # With its quotes such a key has 1,024 characters.
        self.assertEqual(to_json({"k" * 1022: 1}), {"k" * 1022: 1})
        self.check([{"k" * 1023: 1}], "[0]", "a key of more than 1024 characters")

    def test_depth(self) -> None:
        value: Any = 1
        for _ in range(200):
            value = [value]
        to_json(value)
        self.check([value], ".", "nested more than 200 deep")

    def test_what_holds_itself(self) -> None:
        value: Any = []
        value.append({"a": value})
        self.check(value, ".", "holds itself")

    def test_combined_flags(self) -> None:
        if (Access.READ | Access.WRITE).name is None:
            self.check([Access.READ | Access.WRITE], "[0]", f"{__name__}.Access")
        else:
            self.assertEqual(to_json(Access.READ | Access.WRITE), "READ|WRITE")


class Documents(unittest.TestCase):
    request = Request("a::b", "t.py", 3, "n", "f()", {"é": "😀\n"})

    def test_one_line_of_json_without_escapes(self) -> None:
        wanted = '---\n{"module": "a::b", "file": "t.py", "line": 3, "name": "n", "expr": "f()", "value": {"é": "😀\\n"}}\n'
        self.assertEqual(document(self.request), wanted)

    def test_redactions_and_sort(self) -> None:
        redactions = redactions_of({".id": "[id]", ".tags": SORTED, ".at": datetime.date(2024, 1, 2), ".none": None})
        wanted = [{"at": ".id", "put": "[id]"}, {"at": ".tags", "sort": True}, {"at": ".at", "put": "2024-01-02"}, {"at": ".none", "put": None}]
        self.assertEqual(redactions, wanted)
        read = json.loads(document(self.request._replace(redactions=redactions, sort=True))[4:])
        self.assertEqual((read["redactions"], read["sort"]), (wanted, True))

    def test_refused_redactions(self) -> None:
        with self.assertRaisesRegex(Refused, r'^redact\["\.a"\]\.b: a value of the type complex'):
            redactions_of({".a": {"b": 1j}})
        with self.assertRaisesRegex(Refused, "^redact: a value of the type int"):
            redactions_of({1: "x"})  # type: ignore[dict-item]
