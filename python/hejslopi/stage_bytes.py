"""The bytes of a recipe: which fields a stage of each kind has, in their order. Everything here that reads or makes such bytes goes by `LAYOUTS`."""
from __future__ import annotations

import struct
from typing import Dict, Iterator, List, NamedTuple, Optional, Tuple, Union

KINDS = {"ratios": 1, "reals": 2, "binomial": 3, "box": 4, "rank": 5, "outline": 6}
BORDERS = {"constant": 0, "nearest": 1, "mirror": 2, "wrap": 3}
AXES = ("across", "down")

KIND_NAMES = {number: name for name, number in KINDS.items()}
BORDER_NAMES = {number: name for name, number in BORDERS.items()}

MOST_STAGES, MOST_TAPS, MOST_RADIUS, MOST_OFFSET, MOST_GAIN = 8, 31, 15, 15, 4
REAL_WEIGHTS = "0, or 2^-12 to 4 in size"


class Item(NamedTuple):
    """A field of a stage: its name, its number format as `struct` has it, and whether there is one for each axis, for each tap or for the stage."""
    name: str
    format: str
    per: str


HEAD = (Item("kind", "B", "stage"), Item("border", "B", "stage"), Item("border value", "B", "stage"))
RADII = (Item("radius", "B", "axis"),)

# What follows the head, by kind. A field of an axis or of its taps comes for across first, then for down.
LAYOUTS: Dict[str, Tuple[Item, ...]] = {
    "ratios": (Item("taps", "B", "axis"), Item("divisor", "H", "axis"), Item("offset", "b", "tap"), Item("weight", "h", "tap")),
    "reals": (Item("taps", "B", "axis"), Item("offset", "b", "tap"), Item("weight", "f", "tap")),
    "binomial": RADII,
    "box": RADII,
    "rank": RADII + (Item("position", "H", "stage"),),
    "outline": (),
}


Number = Union[int, float]

# The values of a stage's fields by name and axis ("" for the stage as a whole), in byte order.
Values = Dict[Tuple[str, str], List[Number]]


class Field(NamedTuple):
    """A field as it stands in a recipe. `tap` counts from 1 (0 where there are no taps), `value` is None where the recipe ends inside, `end` is the byte behind."""
    name: str
    axis: str
    tap: int
    value: Optional[Number]
    end: int


class Stage(NamedTuple):
    """A stage as it stands in a recipe: its number from 1, its kind's name ("" if it has none), and its fields in byte order."""
    number: int
    kind: str
    fields: List[Field]
    values: Values

    @property
    def whole(self) -> bool:
        """Whether every field is there and is known."""
        return bool(self.kind) and self.fields[-1].value is not None

    @property
    def border(self) -> str:
        return BORDER_NAMES[int(self.one("border"))]

    def one(self, name: str, axis: str = "") -> Number:
        """The value of a field that comes once."""
        return self.values[name, axis][0]


def axes_of(item: Item, values: Values) -> List[str]:
    """The axis of each value that an item stands for, in byte order: across comes before down."""
    if item.per == "stage":
        return [""]
    return [axis for axis in AXES for _ in range(int(values["taps", axis][0]) if item.per == "tap" else 1)]


def axes_held(kind: str) -> Tuple[str, ...]:
    """The axes that a stage of this kind has fields for: both, or none, as for an outline."""
    return AXES if any(item.per != "stage" for item in LAYOUTS[kind]) else ()


def kind_of(values: Values) -> str:
    """The name of a stage's kind, or "" where it has none or is not there yet."""
    return KIND_NAMES.get(int((values.get(("kind", "")) or [0])[0]), "")


def items_of(values: Values) -> Iterator[Item]:
    """The items of a stage. Its kind is looked up behind the head, when the value is there."""
    yield from HEAD
    yield from LAYOUTS.get(kind_of(values), ())


def read_stage(recipe: bytes, number: int, start: int) -> Stage:
    """The stage that begins at a byte, as far as it can be followed: up to its end, an unknown kind or the recipe's end."""
    values: Values = {}
    read: List[Field] = []
    for item in items_of(values):
        for axis in axes_of(item, values):
            at, before = read[-1].end if read else start, values.setdefault((item.name, axis), [])
            end, tap = at + struct.calcsize(">" + item.format), len(before) + 1 if item.per == "tap" else 0
            if end > len(recipe):
                read.append(Field(item.name, axis, tap, None, end))
                return Stage(number, kind_of(values), read, values)
            before += struct.unpack(">" + item.format, recipe[at:end])
            read.append(Field(item.name, axis, tap, before[-1], end))
    return Stage(number, kind_of(values), read, values)


def read_stages(recipe: bytes) -> List[Stage]:
    """The stages of a recipe. The last is not whole where they cannot be followed further."""
    found: List[Stage] = []
    at = 1
    for number in range(1, min(recipe[0], MOST_STAGES) + 1 if recipe else 1):
        found.append(read_stage(recipe, number, at))
        if not found[-1].whole:
            break
        at = found[-1].fields[-1].end
    return found


def stage_bytes(kind: str, values: Values) -> bytes:
    """The bytes of a stage with these values."""
    return b"".join(struct.pack(">%d%s" % (len(values[item.name, axis]), item.format), *values[item.name, axis])
                    for item in HEAD + LAYOUTS[kind] for axis in (AXES if item.per != "stage" else ("",)))
