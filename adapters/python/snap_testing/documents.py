"""What is handed over to the program: which JSON value stands for a Python value, and the document of a request.

The rule for values is the table in README.md. A place is written as the program's selectors write it: `.users[0].name`.
"""

from __future__ import annotations

import binascii
import datetime
import enum
import json
import os
import re
import sys
from collections import abc
from typing import Any, Iterable, Mapping, NamedTuple, NoReturn, Sequence

# The whole numbers that the program takes: those of 128 bits, with a sign or without.
LEAST, MOST = -(1 << 127), (1 << 128) - 1
# A document that is nested deeper might be too deep for the stack of the program, or for Python's.
DEEPEST = 200
# The characters that a reader of YAML looks ahead for the colon after a key, counted with its quotes and escapes.
LONGEST_KEY = 1024
# The flag of a class that a `class` statement made.
HEAP_TYPE = 1 << 9
STANDARD_FOLDER = os.path.dirname(os.path.abspath(os.__file__))
# Classes of these modules have no fields, and are bases of many classes.
NEUTRAL_MODULES = ("abc", "collections.abc", "typing")

# Put for a place by a redaction: the list or the map there is sorted.
SORTED: Any = type("Sorted", (), {"__repr__": lambda self: "SORTED"})()


class Refused(ValueError):
    """A value that can't be handed over: the message begins with the place in it, which is `.` for the value itself."""

    def __init__(self, place: str, reason: str) -> None:
        super().__init__(f"{place or '.'}: {reason}")
        self.place = place or "."
        self.reason = reason


class Request(NamedTuple):
    """A value that is to be judged, as JSON, and where it was made."""

    module: str
    file: str
    line: int
    name: str
    expr: str
    value: Any
    redactions: Sequence[Mapping[str, Any]] = ()
    sort: bool = False


def document(request: Request) -> str:
    """The request as a document of the stream: JSON in one line, without escapes for what is no ASCII."""
    pairs = {key: item for key, item in request._asdict().items() if key not in ("redactions", "sort") or item}
    return f"---\n{json.dumps(pairs, ensure_ascii=False)}\n"


def redactions_of(redact: Mapping[str, Any] | None) -> list[Mapping[str, Any]]:
    """The redactions of a request: selectors, and what is put at each in turn. Raises `Refused`."""
    made = []
    for selector, put in (redact or {}).items():
        at = text_of(selector, "redact")
        made.append({"at": at, "sort": True} if put is SORTED else {"at": at, "put": to_json(put, f"redact[{json_text(at)}]")})
    return made


def to_json(value: Any, place: str = "", depth: int = 0) -> Any:
    """What stands for the value: nothing, truths, whole numbers, texts, lists and maps. Raises `Refused`."""
    if value is None or value is True or value is False:
        return value
    if isinstance(value, enum.Enum):
        return text_of(value.name, place) if value.name else refuse_type(value, place)
    if isinstance(value, str):
        return text_of(value, place)
    if isinstance(value, int):
        return whole_number(value, place)
    if isinstance(value, float):
        return float.__repr__(value)
    if isinstance(value, (datetime.date, datetime.time)):
        return value.isoformat()
    if isinstance(value, (bytes, bytearray, memoryview)):
        return binascii.b2a_base64(value, newline=False).decode()
    if depth >= DEEPEST:
        raise Refused("", f"a value that is nested more than {DEEPEST} deep, or that holds itself")
    return to_tree(value, place, depth + 1)


def to_tree(value: Any, place: str, depth: int) -> Any:
    """What stands for a value that may hold others, at this depth."""
    if isinstance(value, (dict, abc.Mapping)):
        return to_map(value.items(), place, depth)
    if isinstance(value, (list, tuple, abc.Sequence)) and not hasattr(value, "_fields"):
        return [to_json(item, f"{place}[{number}]", depth) for number, item in enumerate(value)]
    if isinstance(value, abc.Set):
        return sorted((to_json(item, f"{place}[]", depth) for item in value), key=json_text)
    names = field_names(value)
    if names is not None:
        return to_map([(name, getattr(value, name)) for name in names if hasattr(value, name)], place, depth)
    return refuse_type(value, place)


def to_map(pairs: Iterable[tuple[Any, Any]], place: str, depth: int) -> Any:
    made = {}
    for key, item in pairs:
        name = key_text(key, place, depth)
        if name in made:
            raise Refused(place, f"two keys have the text {json_text(name)}")
        made[name] = to_json(item, place + step_to(name), depth)
    return made


def key_text(key: Any, place: str, depth: int) -> str:
    """The text of a key: the JSON text of what stands for it, where that is no text itself."""
    try:
        tree = to_json(key, "", depth)
    except Refused as refused:
        raise Refused(place, f"a key can't be handed over: {refused}") from None
    text = tree if isinstance(tree, str) else json_text(tree)
    if len(json_text(text)) > LONGEST_KEY:
        raise Refused(place, f"a key of more than {LONGEST_KEY} characters, counted as JSON; begins with {json_text(text[:20])}")
    return text


def text_of(text: str, place: str) -> str:
    if not isinstance(text, str):
        return refuse_type(text, place)
    if not text.isascii():
        try:
            text.encode()
        except UnicodeEncodeError:
            raise Refused(place, "a text with a lone surrogate, which no UTF-8 can tell") from None
    return text


def whole_number(value: int, place: str) -> int:
    if LEAST <= value <= MOST:
        return value
    raise Refused(place, "a whole number of more than 128 bits; hand it over as a text, as str(number)")


def refuse_type(value: Any, place: str) -> NoReturn:
    kind = type(value)
    name = kind.__qualname__ if kind.__module__ == "builtins" else f"{kind.__module__}.{kind.__qualname__}"
    raise Refused(place, f"a value of the type {name}, which has no rule; hand over a text or a map that you make of it")


def field_names(value: Any) -> Sequence[str] | None:
    """The fields of a dataclass, a named tuple or an object of one's own class, in order; `None` for anything else."""
    kind = type(value)
    if hasattr(kind, "__dataclass_fields__"):
        import dataclasses  # Imported by whoever made the class.

        return [field.name for field in dataclasses.fields(value)]
    if isinstance(value, tuple):
        return kind._fields
    if is_own_class(kind):
        return [*slot_names(kind), *getattr(value, "__dict__", ())]
    return None


def is_own_class(kind: type) -> bool:
    """Whether the class and its bases, but `object`, were made by `class` statements outside of Python's own library."""
    bases = [base for base in kind.__mro__[:-1] if base.__module__ not in NEUTRAL_MODULES]
    return kind is not object and all(base.__flags__ & HEAP_TYPE and not is_standard(base.__module__) for base in bases)


def is_standard(module: str) -> bool:
    if module in sys.builtin_module_names:
        return True
    file = getattr(sys.modules.get(module), "__file__", None) or ""
    return file.startswith(STANDARD_FOLDER + os.sep) and "-packages" + os.sep not in file[len(STANDARD_FOLDER) :]


def slot_names(kind: type) -> list[str]:
    """The names in `__slots__`, of the bases first; a private one as Python keeps it, with its class's name in front."""
    names = []
    for base in reversed(kind.__mro__):
        slots = base.__dict__.get("__slots__", ())
        for slot in [slots] if isinstance(slots, str) else slots:
            is_private = slot.startswith("__") and not slot.endswith("__")
            names.append(f"_{base.__name__.lstrip('_')}{slot}" if is_private else slot)
    return [name for name in names if name not in ("__dict__", "__weakref__")]


def step_to(name: str) -> str:
    """The step to a key, as a selector writes it."""
    if re.fullmatch(r"[^\W\d]\w*", name):
        return f".{name}"
    escaped = name.replace("\\", "\\\\").replace('"', '\\"')
    return f'["{escaped}"]'


def json_text(tree: Any) -> str:
    """The JSON text of what stands for a value, without blanks: what sets are sorted by, and the text of a key."""
    return json.dumps(tree, ensure_ascii=False, separators=(",", ":"))
