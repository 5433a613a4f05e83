#!/usr/bin/env python3
"""A second reader of 32-byte letters, to cross-check another implementation.

It makes a fixed batch of byte strings, right and wrong, and says what a reader
must answer to each. Give the batch to the other implementation and compare its
answers with these, line by line:

    python3 reference/letters.py inputs     the batch, one string a line, in hex
    python3 reference/letters.py answers    what must be answered, a line each
    python3 reference/letters.py summary    what the batch covers; status 1 on a gap

An answer is `refused NUMBER PLACE`, or, for a letter that reads,

    TYPE n sender leader approved width round timestamp text same

where `same` says that packing the decoded fields again gave the same bytes (it
would be `other` if they differed).

The batch never changes: it is drawn from a fixed seed by the generator below,
not by Python's own. Only the standard library is used.


A letter

    place  bytes  field
    0      1      type: 1 PREPARE, 2 COMMIT, 3 DECIDE
    1      1      n, the size of the group: 2 to 8
    2      1      sender, below n
    3      1      leader, below n
    4      1      approved: 0 or 1
    5      1      width of the order kind: 1 lamp number, 6 lamp order
    6      2      zero
    8      4      round, big endian: 1 to 1,000,000
    12     4      timestamp, big endian; see `timestamp_fits`
    16     16     estimate, a value of the order kind

Refusals: 5 (garbled) at 32 for a wrong length, else 5 at the first wrong field
but the estimate's, else 11 (unreadable) at a place counted from the estimate's
first byte.
"""

from __future__ import annotations

import argparse
import struct
import sys
from collections import Counter
from collections.abc import Iterable, Iterator, Sequence
from dataclasses import dataclass, replace
from itertools import combinations, product
from typing import ClassVar, NamedTuple, TypeVar, Union

# --- Refusals ----------------------------------------------------------------

GARBLED = 5
UNREADABLE = 11


class Refusal(Exception):
    """The bytes are refused, for a numbered reason, at a place."""

    def __init__(self, number: int, place: int) -> None:
        super().__init__(number, place)
        self.number = number
        self.place = place


class Check(NamedTuple):
    """What the field at a place must satisfy, and whether it does."""

    place: int
    holds: bool


def require(number: int, checks: Iterable[Check]) -> None:
    """Refuse at the first check that does not hold."""
    for check in checks:
        if not check.holds:
            raise Refusal(number, check.place)


# --- The two order kinds -----------------------------------------------------

FIELD_SIZE = 16
LAST_LAMP = 12
LAST_PRIORITY = 9


def zero_from(field: bytes, start: int) -> list[Check]:
    """Every byte of the field from `start` on must be zero."""
    return [Check(place, field[place] == 0) for place in range(start, len(field))]


@dataclass(frozen=True)
class LampNumber:
    """A lamp: one byte, then 15 zeros."""

    width: ClassVar[int] = 1

    lamp: int

    @classmethod
    def read(cls, field: bytes) -> LampNumber:
        lamp = field[0]
        require(UNREADABLE, [
            Check(0, 1 <= lamp <= LAST_LAMP),
            *zero_from(field, cls.width),
        ])
        return cls(lamp)

    def pack(self) -> bytes:
        return bytes([self.lamp]).ljust(FIELD_SIZE, b"\0")

    def text(self) -> str:
        return str(self.lamp)


class Character(NamedTuple):
    """How a lamp shows, and what counts and periods go with that."""

    name: str
    counts: range
    periods: range


NOTHING = range(0, 1)
PERIODS = range(10, 601)

FIXED, FLASHING, ISOPHASE, GROUP_FLASHING = range(4)

CHARACTERS = {
    FIXED: Character("F", NOTHING, NOTHING),
    FLASHING: Character("Fl", NOTHING, PERIODS),
    ISOPHASE: Character("Iso", NOTHING, PERIODS),
    GROUP_FLASHING: Character("Fl", range(2, 7), PERIODS),
}


@dataclass(frozen=True)
class LampOrder:
    """How a lamp is to show: six bytes, then 10 zeros. Periods are in tenths of a second."""

    width: ClassVar[int] = 6
    layout: ClassVar[struct.Struct] = struct.Struct(">BBBBH10x")

    priority: int
    lamp: int
    code: int
    count: int
    period: int

    @classmethod
    def read(cls, field: bytes) -> LampOrder:
        order = cls(*cls.layout.unpack(field))
        require(UNREADABLE, [
            Check(0, order.priority <= LAST_PRIORITY),
            Check(1, 1 <= order.lamp <= LAST_LAMP),
            Check(2, order.code in CHARACTERS),
        ])
        character = CHARACTERS[order.code]
        require(UNREADABLE, [
            Check(3, order.count in character.counts),
            Check(4, order.period in character.periods),
            *zero_from(field, cls.width),
        ])
        return order

    def pack(self) -> bytes:
        return self.layout.pack(self.priority, self.lamp, self.code, self.count, self.period)

    def text(self) -> str:
        count = f"({self.count})" if self.code == GROUP_FLASHING else ""
        period = "" if self.code == FIXED else str(self.period)
        return f"{self.priority}/{self.lamp}/{CHARACTERS[self.code].name}{count}{period}"


Estimate = Union[LampNumber, LampOrder]

KINDS: dict[int, type[Estimate]] = {kind.width: kind for kind in (LampNumber, LampOrder)}

# --- Letters -----------------------------------------------------------------

PREPARE, COMMIT, DECIDE = TYPES = (1, 2, 3)
TYPE_NAMES = {PREPARE: "PREPARE", COMMIT: "COMMIT", DECIDE: "DECIDE"}

LETTER_SIZE = 32
LAST_ROUND = 1_000_000
LEAST_N, GREATEST_N = 2, 8

# The places of a letter's fields, where a refusal may point.
AT_TYPE = 0
AT_N = 1
AT_SENDER = 2
AT_LEADER = 3
AT_APPROVED = 4
AT_WIDTH = 5
AT_ZERO = 6
AT_ROUND = 8
AT_TIMESTAMP = 12
AT_ESTIMATE = 16

LETTER_LAYOUT = struct.Struct(">BBBBBBHII16s")


@dataclass(frozen=True)
class Letter:
    """A letter's fields. Packing checks nothing, so that wrong letters can be made too."""

    type: int
    n: int
    sender: int
    leader: int
    approved: int
    round: int
    timestamp: int
    estimate: Estimate

    @property
    def width(self) -> int:
        return self.estimate.width

    def pack(self) -> bytes:
        return LETTER_LAYOUT.pack(
            self.type, self.n, self.sender, self.leader, self.approved, self.width,
            0, self.round, self.timestamp, self.estimate.pack())

    def text(self) -> str:
        return (f"{TYPE_NAMES[self.type]} {self.n} {self.sender} {self.leader} {self.approved}"
                f" {self.width} {self.round} {self.timestamp} {self.estimate.text()}")


def timestamp_fits(letter_type: int, round_: int, timestamp: int) -> bool:
    """The timestamp rule. The sums are exact: they never wrap around."""
    if letter_type == COMMIT:
        return round_ >= 2 and timestamp + 1 == round_
    if letter_type == DECIDE:
        return timestamp + 2 <= round_
    if letter_type == PREPARE:
        return timestamp + 2 <= round_ or (round_ == 1 and timestamp == 0)
    return False


def read_letter(data: bytes) -> Letter:
    """Read any bytes as a letter, or raise the refusal they deserve."""
    require(GARBLED, [Check(LETTER_SIZE, len(data) == LETTER_SIZE)])
    (letter_type, n, sender, leader, approved, width,
     zero, round_, timestamp, field) = LETTER_LAYOUT.unpack(data)
    kind = KINDS.get(width, LampNumber)
    require(GARBLED, [
        Check(AT_TYPE, letter_type in TYPES),
        Check(AT_N, LEAST_N <= n <= GREATEST_N),
        Check(AT_SENDER, sender < n),
        Check(AT_LEADER, leader < n),
        Check(AT_APPROVED, approved <= 1),
        Check(AT_WIDTH, width == kind.width),
        Check(AT_ZERO, zero == 0),
        Check(AT_ROUND, 1 <= round_ <= LAST_ROUND),
        Check(AT_TIMESTAMP, timestamp_fits(letter_type, round_, timestamp)),
    ])
    return Letter(letter_type, n, sender, leader, approved, round_, timestamp, kind.read(field))


def answer(data: bytes) -> str:
    """The line that must be answered to a byte string."""
    try:
        letter = read_letter(data)
    except Refusal as refusal:
        return f"refused {refusal.number} {refusal.place}"
    again = "same" if letter.pack() == data else "other"
    return f"{letter.text()} {again}"


# --- Drawing letters ---------------------------------------------------------

SEED = 0x6C657474657273  # "letters"
MASK_32 = 2**32 - 1
MASK_64 = 2**64 - 1

T = TypeVar("T")


class Generator:
    """A small generator of numbers (SplitMix64): the same seed, the same numbers, always."""

    def __init__(self, seed: int) -> None:
        self.state = seed

    def next(self) -> int:
        """The next 64-bit number."""
        self.state = (self.state + 0x9E3779B97F4A7C15) & MASK_64
        z = self.state
        z = ((z ^ (z >> 30)) * 0xBF58476D1CE4E5B9) & MASK_64
        z = ((z ^ (z >> 27)) * 0x94D049BB133111EB) & MASK_64
        return z ^ (z >> 31)

    def below(self, limit: int) -> int:
        """A number from 0 to limit - 1."""
        return self.next() * limit >> 64

    def among(self, values: Sequence[T]) -> T:
        """One of the values."""
        return values[self.below(len(values))]

    def one_in(self, chances: int) -> bool:
        return self.below(chances) == 0

    def bytes(self, size: int) -> bytes:
        return bytes(self.below(256) for _ in range(size))

    def edgy(self, least: int, greatest: int) -> int:
        """A number from least to greatest; about half the time, at or next to an edge."""
        if self.one_in(2):
            return least + self.below(greatest - least + 1)
        edges = (least, least + 1, greatest - 1, greatest)
        return min(max(self.among(edges), least), greatest)

    def mostly(self, right: Sequence[int], wrong: Sequence[int]) -> int:
        """One of the right values, or, one time in 12, one of the wrong ones."""
        return self.among(wrong if self.one_in(12) else right)


def valid_estimate(draw: Generator, kind: type[Estimate]) -> Estimate:
    """A right value of the kind."""
    lamp = draw.edgy(1, LAST_LAMP)
    if kind is LampNumber:
        return LampNumber(lamp)
    code = draw.among(tuple(CHARACTERS))
    counts, periods = CHARACTERS[code].counts, CHARACTERS[code].periods
    return LampOrder(
        priority=draw.edgy(0, LAST_PRIORITY),
        lamp=lamp,
        code=code,
        count=draw.edgy(counts[0], counts[-1]),
        period=draw.edgy(periods[0], periods[-1]))


def valid_letter(draw: Generator) -> Letter:
    """A right letter, often with values at their edges."""
    letter_type = draw.among(TYPES)
    n = draw.among(range(LEAST_N, GREATEST_N + 1))
    round_ = draw.edgy(1 if letter_type == PREPARE else 2, LAST_ROUND)
    if letter_type == COMMIT:
        timestamp = round_ - 1
    else:
        timestamp = draw.edgy(0, max(round_ - 2, 0))
    return Letter(
        type=letter_type,
        n=n,
        sender=draw.edgy(0, n - 1),
        leader=draw.edgy(0, n - 1),
        approved=draw.below(2),
        round=round_,
        timestamp=timestamp,
        estimate=valid_estimate(draw, draw.among((LampNumber, LampOrder))))


def overwritten(data: bytes, place: int, new: bytes) -> bytes:
    """The same bytes, but with the new ones at the place."""
    return data[:place] + new + data[place + len(new):]


# --- The parts of the batch --------------------------------------------------

VALID_COUNT = 4000
DAMAGED_PER_PLACE = 125
NEARLY_VALID_COUNT = 1600
RANDOM_COUNT = 200
RANDOM_TAIL_COUNT = 200
LENGTHS = range(0, 65)


def valid_letters(draw: Generator) -> Iterator[bytes]:
    """Letters that read."""
    for _ in range(VALID_COUNT):
        yield valid_letter(draw).pack()


def damaged_letters(draw: Generator) -> Iterator[bytes]:
    """Right letters with one byte changed, each place in turn. Some still read."""
    for _ in range(DAMAGED_PER_PLACE):
        for place in range(LETTER_SIZE):
            data = valid_letter(draw).pack()
            old = data[place]
            step_up = (old + 1) % 256
            step_down = (old - 1) % 256
            one_bit = old ^ (1 << draw.below(8))
            new = draw.among((step_up, step_down, 0, 255, one_bit, draw.below(256)))
            yield overwritten(data, place, bytes([step_up if new == old else new]))


def nearly_valid_field(draw: Generator, width: int) -> bytes:
    """An estimate's field with values around their limits, and now and then a stray byte."""
    lamp = draw.mostly((1, 2, 11, 12), (0, 13, 255))
    if width == LampOrder.width:
        priority = draw.mostly((0, 1, 8, 9), (10, 11, 255))
        code = draw.mostly(tuple(CHARACTERS), (4, 5, 255))
        count = draw.mostly((2, 3, 5, 6) if code == GROUP_FLASHING else (0,), (0, 1, 2, 6, 7, 255))
        period = draw.mostly((0,) if code == FIXED else (10, 11, 255, 256, 599, 600),
                             (0, 1, 9, 10, 600, 601, 2560, 65535))
        field = LampOrder(priority, lamp, code, count, period).pack()
    else:
        field = LampNumber(lamp).pack()
    if draw.one_in(8):
        field = overwritten(field, draw.below(FIELD_SIZE), draw.bytes(1))
    return field


def nearly_valid_letters(draw: Generator) -> Iterator[bytes]:
    """Each field drawn from values around its limits, so that several may be wrong at once."""
    for _ in range(NEARLY_VALID_COUNT):
        letter_type = draw.mostly(TYPES, (0, 4, 255))
        n = draw.mostly(range(2, 9), (0, 1, 9, 255))
        sender = draw.mostly(range(max(n, 1)), (n, min(n + 1, 255), 255))
        leader = draw.mostly(range(max(n, 1)), (n, min(n + 1, 255), 255))
        approved = draw.mostly((0, 1), (2, 255))
        width = draw.mostly((1, 6), (0, 2, 5, 7, 255))
        zero = draw.mostly((0,), (1, 256, 257, 65535))
        round_ = draw.mostly((1, 2, 3, 5, 999_999, 1_000_000), (0, 1_000_001, MASK_32))
        fitting = round_ - 1 if letter_type == COMMIT else round_ - 2
        timestamp = draw.among((fitting, fitting, fitting, 0, 1, round_ - 3, round_ - 2,
                                round_ - 1, round_, round_ + 1, MASK_32 - 1, MASK_32)) & MASK_32
        yield LETTER_LAYOUT.pack(letter_type, n, sender, leader, approved, width, zero,
                                 round_, timestamp, nearly_valid_field(draw, width))


def random_letters(draw: Generator) -> Iterator[bytes]:
    """32 random bytes, all of them or from some place on."""
    for _ in range(RANDOM_COUNT):
        yield draw.bytes(LETTER_SIZE)
    for _ in range(RANDOM_TAIL_COUNT):
        kept = draw.below(LETTER_SIZE)
        yield valid_letter(draw).pack()[:kept] + draw.bytes(LETTER_SIZE - kept)


def all_lengths(draw: Generator) -> Iterator[bytes]:
    """Every length, eight times: letters cut or prolonged, and random bytes."""
    for length in LENGTHS:
        for tail in (bytes(64), bytes(64), b"\xff" * 64, draw.bytes(64), draw.bytes(64)):
            yield (valid_letter(draw).pack() + tail)[:length]
        yield (valid_letter(draw).pack() + valid_letter(draw).pack())[:length]
        yield draw.bytes(length)
        yield bytes(length)


PLAIN = Letter(type=PREPARE, n=3, sender=1, leader=2, approved=1, round=7, timestamp=4,
               estimate=LampNumber(8))
PLAIN_ORDER = replace(PLAIN, estimate=LampOrder(5, 3, GROUP_FLASHING, 2, 100))


def timestamp_cases(_: Generator) -> Iterator[bytes]:
    """Each type and each round at a limit, with the timestamps around it.

    The greatest timestamps would pass if the sums wrapped around at 32 bits.
    """
    rounds = (0, 1, 2, 5, 1_000_000, 1_000_001, MASK_32)
    for letter_type, round_ in product(TYPES, rounds):
        around = {timestamp & MASK_32 for timestamp in range(round_ - 3, round_ + 2)}
        for timestamp in sorted(around | {0, MASK_32 - 1, MASK_32}):
            yield replace(PLAIN, type=letter_type, round=round_, timestamp=timestamp).pack()


def order_cases(_: Generator) -> Iterator[bytes]:
    """Lamp numbers and lamp orders, each field through its limits."""
    for lamp in range(14):
        yield replace(PLAIN, estimate=LampNumber(lamp)).pack()
    for priority, lamp in product((0, 9, 10, 255), (0, 1, 12, 13, 255)):
        order = replace(PLAIN_ORDER.estimate, priority=priority, lamp=lamp)
        yield replace(PLAIN, estimate=order).pack()
    for code, count, period in product(range(5), (0, 1, 2, 6, 7), (0, 9, 10, 600, 601, 2560)):
        yield replace(PLAIN, estimate=LampOrder(5, 3, code, count, period)).pack()


def kind_cases(_: Generator) -> Iterator[bytes]:
    """Each of the kinds' fields under every small width, its own, the other's and no one's."""
    for letter, width in product((PLAIN, PLAIN_ORDER), (*range(9), 16, 255)):
        yield overwritten(letter.pack(), AT_WIDTH, bytes([width]))


def stray_cases(_: Generator) -> Iterator[bytes]:
    """One stray byte at each place that must be zero, then pairs of them: the first one counts."""
    for letter in (PLAIN, PLAIN_ORDER):
        data = letter.pack()
        places = (AT_ZERO, AT_ZERO + 1, *range(AT_ESTIMATE + letter.width, LETTER_SIZE))
        for place in places:
            yield overwritten(data, place, b"\x01")
        pairs = [pair for pair in combinations(places, 2)
                 if pair[1] - pair[0] in (1, 5) or pair[1] == LETTER_SIZE - 1]
        for first, second in pairs:
            yield overwritten(overwritten(data, first, b"\x80"), second, b"\x01")


def double_cases(_: Generator) -> Iterator[bytes]:
    """Two fields wrong at once, every pair of fields, in either kind: the first one counts."""
    wrong_bytes = {
        AT_TYPE: b"\x04",
        AT_N: b"\x09",
        AT_SENDER: b"\x09",
        AT_LEADER: b"\x09",
        AT_APPROVED: b"\x02",
        AT_WIDTH: b"\x02",
        AT_ZERO: b"\x00\x01",
        AT_ROUND: b"\x00\x0f\x42\x41",
        AT_TIMESTAMP: b"\xff\xff\xff\xff",
        AT_ESTIMATE: b"\x0d",
    }
    for letter, (first, second) in product((PLAIN, PLAIN_ORDER), combinations(wrong_bytes, 2)):
        data = overwritten(letter.pack(), first, wrong_bytes[first])
        yield overwritten(data, second, wrong_bytes[second])


PARTS = (
    valid_letters,
    damaged_letters,
    nearly_valid_letters,
    random_letters,
    all_lengths,
    timestamp_cases,
    order_cases,
    kind_cases,
    stray_cases,
    double_cases,
)


class Item(NamedTuple):
    """A byte string of the batch, and the name of its part."""

    part: str
    data: bytes


def batch() -> list[Item]:
    """The whole batch, always the same."""
    draw = Generator(SEED)
    return [Item(part.__name__, data) for part in PARTS for data in part(draw)]


# --- The commands ------------------------------------------------------------


def print_inputs() -> int:
    """Print the batch in hex."""
    for item in batch():
        print(item.data.hex())
    return 0


def print_answers() -> int:
    """Print what must be answered."""
    for item in batch():
        print(answer(item.data))
    return 0


EXPECTED_REFUSALS = [
    *((GARBLED, place) for place in (
        AT_TYPE, AT_N, AT_SENDER, AT_LEADER, AT_APPROVED, AT_WIDTH, AT_ZERO, AT_ROUND,
        AT_TIMESTAMP, LETTER_SIZE)),
    *((UNREADABLE, place) for place in range(FIELD_SIZE)),
]


def length_class(length: int) -> str:
    if length < 6:
        return "0 to 5 bytes"
    if length < LETTER_SIZE:
        return "6 to 31 bytes"
    if length == LETTER_SIZE:
        return "32 bytes"
    return "33 to 64 bytes"


def sort_of(line: str) -> str:
    """An answer's sort: the refusal, or the type, the width and the last word."""
    words = line.split(" ")
    if words[0] == "refused":
        return line
    return f"{words[0]} width {words[5]} {words[-1]}"


def print_counts(title: str, counts: Counter[str], order: Iterable[str]) -> None:
    print(title)
    for name in order:
        print(f"  {counts[name]:6}  {name}")
    print()


def print_summary() -> int:
    """Print what the batch covers; return 1 if something that must occur does not."""
    items = batch()
    lines = [answer(item.data) for item in items]
    lengths = Counter(len(item.data) for item in items)
    sorts = Counter(sort_of(line) for line in lines)
    parts = Counter(item.part for item in items)
    refused = Counter(item.part for item, line in zip(items, lines) if line.startswith("refused"))
    refused_count = sum(refused.values())
    groups = Counter(line.split(" ")[1] for line in lines if not line.startswith("refused"))

    refusals = [f"refused {number} {place}" for number, place in EXPECTED_REFUSALS]
    letters = [f"{name} width {width} same" for name in TYPE_NAMES.values() for width in KINDS]
    sizes = [str(n) for n in range(LEAST_N, GREATEST_N + 1)]

    print(f"{len(items)} strings, {len({item.data for item in items})} of them different;"
          f" {len(items) - refused_count} read, {refused_count} refused\n")
    print("Parts")
    for part in parts:
        print(f"  {parts[part]:6}  {part}, {refused[part]} refused")
    print()
    classes = Counter(length_class(len(item.data)) for item in items)
    print_counts("Lengths", classes, dict.fromkeys(length_class(length) for length in LENGTHS))
    print_counts("Letters that read", sorts, letters)
    print_counts("Letters that read, by n", groups, sizes)
    print_counts("Refusals", sorts, refusals)

    gaps = [sort for sort in (*refusals, *letters) if not sorts[sort]]
    gaps += [f"a letter that reads with n {size}" for size in sizes if not groups[size]]
    gaps += [f"eight strings of {length} bytes" for length in LENGTHS if lengths[length] < 8]
    strangers = sorted(set(sorts) - {*refusals, *letters})
    if refused["valid_letters"]:
        strangers.append("a refusal among the valid letters")
    for gap in gaps:
        print(f"MISSING: {gap}")
    for stranger in strangers:
        print(f"MUST NOT OCCUR: {stranger}")
    if gaps or strangers:
        return 1
    print("Nothing is missing, and nothing occurs that must not.")
    return 0


COMMANDS = {"inputs": print_inputs, "answers": print_answers, "summary": print_summary}


def main() -> int:
    parser = argparse.ArgumentParser(description="A second reader of 32-byte letters.")
    parser.add_argument("command", choices=COMMANDS, help="what to print")
    return COMMANDS[parser.parse_args().command]()


if __name__ == "__main__":
    sys.exit(main())
