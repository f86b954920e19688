"""The upload planner from Python: one module over the shared library.

The module needs nothing but the file `libupload.so`, which `bindings/c/install` makes. It takes
the file that the environment variable UPLOAD_PLANNER_LIB names by its path, otherwise the one that
stands beside the module, otherwise the one that the system finds. Pictures alone are drawn by the
command `upload-planner`.

Job A has two units and a delay of one interval, so three intervals. The decoder holds four grains;
the bucket holds three, and two drain from it. An interval sends 0, 2 or 4 grains. A unit is a list
of its choices, and a choice is its grains and its distortion.

>>> from upload_planner import Bucket, Header, Job, NoPlan, Refused, Session
>>> header = Header(units=2, delay=1, decoder=4, buckets=[Bucket(size=3, drain=2)],
...                 rates=3, choices=2)
>>> job = Job.write(header, [0, 2, 4], [[(4, 10), (2, 30)], [(5, 12), (2, 40)]])
>>> job.intervals, job.table_words, len(job.data)
(3, 80, 64)

The bytes hold all of it: here they are read back, and unit 2 takes five grains at its choice 0.

>>> stored = Job(job.data)
>>> stored.rates, stored.units[1][0]
([0, 2, 4], (5, 12))

The best plan sends 4, 0 and 4 grains. Unit 1 has choice 0 and unit 2 choice 1: 10 + 40. The late
order sends 0, 4 and 2 instead, and the drain of interval 1 finds nothing in the bucket.

>>> session = Session(job)
>>> session.least_total
50
>>> plan = session.plan()
>>> plan.entries
[(2, None), (0, 0), (2, 1)]
>>> plan.totals
Totals(distortion=50, source=6, channel=8, unused=(0,))
>>> late = session.plan(late=True)
>>> late.entries
[(0, None), (2, 0), (1, 1)]
>>> late.totals
Totals(distortion=50, source=6, channel=6, unused=(2,))

An editor pins units and lifts them again, and sees at once what it costs. Unit 2 at choice 0 takes
five grains, and the decoder holds four.

>>> [session.see(1, choice) for choice in (0, 1)]
[50, 70]
>>> session.pin(1, 1)
>>> session.least_total
70
>>> session.pin(2, 0)
>>> session.least_total is None
True
>>> session.pins
{1: 1, 2: 0}
>>> session.plan()
Traceback (most recent call last):
    ...
upload_planner.NoPlan: refused 13: no plan is admissible
>>> session.pin(2, 1)
Traceback (most recent call last):
    ...
upload_planner.Refused: refused 9: the unit is pinned already
>>> session.lift(2)
>>> session.least_total
70

The plan from before does not hold the pin of unit 1, which is decoded in interval 2.

>>> session.replay(plan).violation
Violation(interval=2, number=4, words='pin not held')
>>> session.lift(1)
>>> session.least_total
50
>>> session.replay(plan).levels
[(4, 2), (0, 0), (2, 2)]
>>> session.report(plan)
[4, 0, 4]

A picture of the plan (`Session.picture`), larger buckets (`Session.larger_buckets`), a contract
that changes (`Session.change`) and programmes that are sent back to back (`playlist`) have examples
of their own.
"""

from __future__ import annotations

import ctypes
import ctypes.util
import operator
import os
import shutil
import subprocess
import threading
from dataclasses import dataclass
from typing import Dict, Iterable, List, NamedTuple, Optional, Sequence, Tuple, Union

__all__ = [
    "Bucket",
    "Header",
    "Job",
    "NoPlan",
    "PinTotals",
    "Plan",
    "PlaylistRefused",
    "Refused",
    "Replayed",
    "Session",
    "Totals",
    "Violation",
    "playlist",
    "replay",
    "report",
    "turn",
]

__version__ = "0.1.0"

# What refusals and violations say, by their numbers, as in include/upload.h.
_REFUSALS = {
    0: "not refused",
    1: "the bytes end before a record that is due is whole, or the last call is cut",
    2: "a record, an aim, an order or a call of another kind or length than the one due",
    3: "a field of the header or a number of a contract is out of range, or there are "
    "more or fewer than are due",
    4: "a rate is over 4,095, or the rates do not rise",
    5: "a choice's grains or distortion are over their limit",
    6: "the set of pins does not fit the job",
    7: "the job has no such unit",
    8: "the unit has no such choice",
    9: "the unit is pinned already",
    10: "the unit is not pinned",
    11: "the table has fewer words than planning needs",
    12: "a list that is to be filled is too short",
    13: "no plan is admissible",
    14: "the entries are not a plan of this job",
    15: "the input is longer than 32,768 bytes",
    16: "a list's length is not what the header calls for",
    17: "the drain of a bucket is 0, so that the line never drains",
    18: "the contract does not change within the programme",
    19: "the old plan has a violation before the contract changes",
    20: "the level of a bucket is over its size in the new contract or the next programme",
    21: "the playlist has no entry, more than 64, or an odd count of numbers",
    22: "an entry passes the bytes, bytes are left behind its job, or it has another "
    "number of buckets than the first",
}
_VIOLATIONS = {
    0: "no violation",
    1: "decoder short",
    2: "decoder over",
    3: "bucket over",
    4: "pin not held",
    5: "second bucket over",
}

_NO_PLAN = 13
_TOTAL, _EVEN = 0, 1
_EARLY, _LATE = 0, 1
_MARK = 65_535
_NEVER = 4_294_967_295
_LARGEST_SIZE, _LARGEST_SECOND = 255, 63
_LARGEST_JOB = 3_074_112
_PROGRAMMES, _PROGRAMME_TOTALS = 64, 5
_SET_NUMBERS, _SET_PINS, _SET_TOTALS = 528, 13, 525
_FIELDS_MOST, _RATES_MOST = 12, 16

_U8, _U16, _U32, _U64 = ctypes.c_uint8, ctypes.c_uint16, ctypes.c_uint32, ctypes.c_uint64

# What each function takes: a list of such numbers, which is a pointer and a count, or one number.
_FUNCTIONS = {
    "upload_open": ([_U8], [_U64]),
    "upload_archive": ([_U8], [_U64]),
    "upload_set": ([_U8], [_U32]),
    "upload_archive_set": ([_U8], [_U32]),
    "upload_pin_and_see": ([_U8], [_U32], _U16, _U16, [_U32], [_U64]),
    "upload_lift_and_see": ([_U8], [_U32], _U16, [_U32], [_U64]),
    "upload_plan_set": ([_U8], [_U32], _U32, _U32, [_U32], [_U8], [_U64]),
    "upload_replay_set": ([_U8], [_U32], [_U8], [_U16], [_U64]),
    "upload_report": ([_U8], [_U8], [_U32]),
    "upload_turn": ([_U8], [_U8], [_U8]),
    "upload_change": (
        [_U8], [_U32], [_U8], _U32, [_U16], [_U16], [_U16], _U32, [_U32], [_U8], [_U64],
    ),
    "upload_sizes": ([_U8], [_U32], [_U32], [_U32]),
    "upload_playlist": ([_U8], [_U32], [_U32], [_U8], [_U64]),
    "upload_write": ([_U16], [_U16], [_U16], [_U32], [_U8], [_U64]),
    "upload_read": ([_U8], [_U16], [_U16], [_U16], [_U32], [_U64]),
    "upload_read_archive": ([_U8], [_U16], [_U16], [_U16], [_U32], [_U64]),
    "upload_trial": ([_U16], _U32, [_U8], [_U64]),
}

_INSTALL = (
    "install it with 'bindings/c/install PREFIX', which makes PREFIX/lib/libupload.so, "
    "and name that file in the environment variable UPLOAD_PLANNER_LIB"
)
_BUILD = (
    "build it from bindings/rust, and put it on PATH or name its file in the environment variable "
    "UPLOAD_PLANNER_COMMAND"
)


def _found() -> str:
    """Where the shared library is."""
    named = os.environ.get("UPLOAD_PLANNER_LIB")
    if named:
        if not os.path.isfile(named):
            raise ImportError(
                f"UPLOAD_PLANNER_LIB names {named}, and there is no such file: {_INSTALL}"
            )
        return os.path.abspath(named)
    beside = os.path.join(os.path.dirname(os.path.abspath(__file__)), "libupload.so")
    if os.path.isfile(beside):
        return beside
    known = ctypes.util.find_library("upload")
    if known is None:
        raise ImportError(f"the upload planner's shared library is not found: {_INSTALL}")
    return known


def _loaded() -> Dict[str, object]:
    """The functions of the shared library, by their names."""
    place = _found()
    try:
        library = ctypes.CDLL(place)
    except OSError as error:
        raise ImportError(f"{place} cannot be loaded ({error}): {_INSTALL}") from error
    functions = {}
    for name, takes in _FUNCTIONS.items():
        try:
            function = getattr(library, name)
        except AttributeError:
            raise ImportError(
                f"{place} has no function {name}, so it is not this version of the upload "
                f"planner: {_INSTALL}"
            ) from None
        function.restype = _U32
        function.argtypes = []
        for one in takes:
            if isinstance(one, list):
                function.argtypes += [ctypes.POINTER(one[0]), ctypes.c_size_t]
            else:
                function.argtypes += [one]
        functions[name] = function
    return functions


_LIBRARY = _loaded()


class Refused(Exception):
    """A call that was refused: `number`, and `words` that say what it means.

    >>> try:
    ...     Job(b"")
    ... except Refused as refused:
    ...     print(refused.number, refused.words)
    1 the bytes end before a record that is due is whole, or the last call is cut
    """

    def __init__(self, number: int) -> None:
        super().__init__(number)
        self.number = number

    @property
    def words(self) -> str:
        """What the number means."""
        return _REFUSALS.get(self.number, "no refusal has this number")

    def __str__(self) -> str:
        return f"refused {self.number}: {self.words}"


class NoPlan(Refused):
    """No plan is admissible, number 13; of a change of contract, no plan of the rest."""

    def __init__(self, number: int = _NO_PLAN) -> None:
        super().__init__(number)


class PlaylistRefused(Refused):
    """A playlist that was refused: `place` is that of the programme, counted from 1, or None where
    the list itself was refused. Where a programme has no plan, `number` is 13."""

    def __init__(self, number: int, place: Optional[int]) -> None:
        super().__init__(number)
        self.args = (number, place)
        self.place = place

    def __str__(self) -> str:
        refused = super().__str__()
        return refused if self.place is None else f"programme {self.place}: {refused}"


class _Lent:
    """A list to lend: an array and the count of its numbers. An empty list has an array of one,
    as no pointer may be null."""

    __slots__ = ("array", "count")

    def __init__(self, kind, count: int, numbers: Iterable[int] = ()) -> None:
        self.array = (kind * max(count, 1))(*numbers)
        self.count = count

    def __getitem__(self, at):
        return self.array[at]

    def bytes(self) -> bytes:
        """All bytes of it."""
        return bytes(memoryview(self.array))[: self.count * ctypes.sizeof(self.array._type_)]


def _lent_bytes(data: bytes) -> _Lent:
    lent = _Lent(_U8, len(data))
    ctypes.memmove(lent.array, data, len(data))
    return lent


def _most(kind) -> int:
    """The largest number of a type."""
    return 256 ** ctypes.sizeof(kind) - 1


def _fitting(number: int, most: int) -> int:
    """A number, or, where it does not fit, the largest that does. That one is out of range wherever
    the library looks at it, so that it is refused as the number itself would be."""
    number = operator.index(number)
    return number if 0 <= number <= most else most


def _lent_numbers(kind, numbers: Iterable[int]) -> _Lent:
    most = _most(kind)
    fitting = [_fitting(number, most) for number in numbers]
    return _Lent(kind, len(fitting), fitting)


def _answer(name: str, *given: Union[_Lent, int]) -> int:
    """What a function answers."""
    flat: list = []
    for one in given:
        if isinstance(one, _Lent):
            flat += [one.array, one.count]
        else:
            flat += [one]
    return _LIBRARY[name](*flat)


def _call(name: str, *given: Union[_Lent, int]) -> None:
    """Calls a function, and raises its refusal."""
    number = _answer(name, *given)
    if number == _NO_PLAN:
        raise NoPlan()
    if number != 0:
        raise Refused(number)


class Totals(NamedTuple):
    """What a plan comes to."""

    #: The distortions of the choices made.
    distortion: int
    #: What the units take, in grains.
    source: int
    #: What the intervals send, in grains.
    channel: int
    #: For each bucket the grains of its drain that found nothing there.
    unused: Tuple[int, ...]


class PinTotals(NamedTuple):
    """What the pins of a session come to."""

    #: How many there are.
    count: int
    #: What their units take at the pinned choices, in grains.
    grains: int
    #: The distortions of these choices.
    distortion: int


class Violation(NamedTuple):
    """What is wrong with a plan, first of all."""

    #: Its interval, counted from 1.
    interval: int
    #: Its number, as in C.
    number: int
    #: What the number means.
    words: str


class Replayed(NamedTuple):
    """What replay finds."""

    #: After each interval before the violation, or after all: the level of the decoder, then that
    #: of each bucket.
    levels: List[Tuple[int, ...]]
    #: The first violation, or None where the plan is admissible.
    violation: Optional[Violation]
    #: What the plan comes to, or None where there is a violation.
    totals: Optional[Totals]


@dataclass(frozen=True)
class Bucket:
    """A carrier's leaky bucket, as a job starts with it."""

    #: Its size, at most 255; of a second bucket at most 63.
    size: int
    #: What leaves it in an interval, from 1 to 4,095.
    drain: int
    #: Its starting level, at most its size.
    level: int = 0


@dataclass(frozen=True)
class Header:
    """The header of a job. A line has one bucket or two.

    >>> Header(units=2, delay=1, decoder=4, buckets=[Bucket(3, 2)], rates=3, choices=2).job_bytes
    64
    """

    #: How many units there are, from 1 to 512.
    units: int
    #: How many intervals pass before the first unit is decoded, at most 64.
    delay: int
    #: The decoder's size, at most 255.
    decoder: int
    #: The buckets.
    buckets: Tuple[Bucket, ...]
    #: How many rates there are, from 1 to 16.
    rates: int
    #: How many choices each unit has, from 1 to 1,000.
    choices: int
    #: The decoder's starting level, at most its size.
    level: int = 0

    def __post_init__(self) -> None:
        object.__setattr__(self, "buckets", tuple(self.buckets))

    @property
    def numbers(self) -> List[int]:
        """The header as the numbers that the library takes: nine, and three more where there is a
        second bucket."""
        fields = [self.units, self.delay, self.decoder]
        fields += [number for one in self.buckets[:1] for number in (one.size, one.drain)]
        fields += [self.level]
        fields += [one.level for one in self.buckets[:1]]
        fields += [self.rates, self.choices]
        for one in self.buckets[1:]:
            fields += [one.size, one.drain, one.level]
        return fields

    @property
    def job_bytes(self) -> int:
        """How many bytes a job of this header takes."""
        header = 4 + 2 * len(self.numbers)
        return header + 4 + 2 * self.rates + self.units * (4 + 6 * self.choices)

    @classmethod
    def _of(cls, fields: Sequence[int]) -> Header:
        """From the fields that reading wrote, as `numbers` has them."""
        units, delay, decoder, size, drain, level, fill, rates, choices, *second = fields
        buckets = [Bucket(size, drain, fill)] + ([Bucket(*second)] if second else [])
        return cls(units, delay, decoder, tuple(buckets), rates, choices, level)

    def _room(self) -> _Lent:
        """A list for the bytes of a job. A header out of range may call for more than any job
        takes; it is refused, however long the list."""
        return _Lent(_U8, max(0, min(self.job_bytes, _LARGEST_JOB)))


class Job:
    """A job: `data`, its bytes; `header`, `rates` and `units`, what they hold; `intervals`, how
    many there are; and `table_words`, how many words of four bytes its table has.

    `Job(data)` opens the bytes of a job, and refuses a line that never drains. `Job.write` makes
    one from its header and lists. What stands behind the job is left out. Two jobs are equal if
    their bytes are.

    >>> header = Header(units=2, delay=1, decoder=4, buckets=[Bucket(3, 2)], rates=3, choices=2)
    >>> units = [[(4, 10), (2, 30)], [(5, 12), (2, 40)]]
    >>> job = Job.write(header, [0, 2, 4], units)
    >>> Job(job.data + b"behind") == job
    True
    >>> job.header
    Header(units=2, delay=1, decoder=4, buckets=(Bucket(size=3, drain=2, level=0),), rates=3, \
choices=2, level=0)
    >>> job.rates
    [0, 2, 4]
    >>> job.units
    [[(4, 10), (2, 30)], [(5, 12), (2, 40)]]

    An editor has the bytes alone, and corrects a distortion: unit 1 loses 5 at its choice 1.

    >>> corrected = job.units
    >>> corrected[0][1] = (2, 5)
    >>> Session(Job.write(job.header, job.rates, corrected)).least_total
    45

    With a second bucket, of size 1 and drain 2, no interval can send more than two grains. The plan
    from before brings that bucket to 2 at once.

    >>> from dataclasses import replace
    >>> plan = Session(job).plan()
    >>> second = replace(header, buckets=[Bucket(3, 2), Bucket(1, 2)])
    >>> two = Session(Job.write(second, [0, 2, 4], units))
    >>> two.job.table_words
    160
    >>> two.plan().entries
    [(1, None), (1, 0), (1, 1)]
    >>> two.replay(two.plan())
    Replayed(levels=[(2, 0, 0), (0, 0, 0), (0, 0, 0)], violation=None, \
totals=Totals(distortion=50, source=6, channel=6, unused=(0, 0)))
    >>> two.replay(plan)
    Replayed(levels=[], violation=Violation(interval=1, number=5, words='second bucket over'), \
totals=None)
    """

    __slots__ = (
        "data", "header", "intervals", "table_words", "_lent", "_rates", "_sizes", "_distortions",
    )

    def __init__(self, data: bytes) -> None:
        self._open(data, "upload_open", "upload_read")

    @classmethod
    def archived(cls, data: bytes) -> Job:
        """A stored job, whose drain may be 0. Such a job can be replayed, reported and used to turn
        a plan; to plan it anew, correct the drain and write the job again.

        Here the drain of Job A is 0 and its bucket 6. A stored plan sends 0, 2 and 2 grains, and
        what is sent stays in the bucket.

        >>> header = Header(units=2, delay=1, decoder=4, buckets=[Bucket(3, 2)], rates=3, choices=2)
        >>> job = Job.write(header, [0, 2, 4], [[(4, 10), (2, 30)], [(5, 12), (2, 40)]])
        >>> stored = job.data[:10] + bytes([6, 0, 0, 0]) + job.data[14:]
        >>> Job(stored)
        Traceback (most recent call last):
            ...
        upload_planner.Refused: refused 17: the drain of a bucket is 0, so that the line never \
drains
        >>> old = Job.archived(stored)
        >>> old.header.buckets
        (Bucket(size=6, drain=0, level=0),)
        >>> old.units == job.units
        True
        >>> replay(old, [(0, None), (1, 1), (1, 1)])
        Replayed(levels=[(0, 0), (0, 2), (0, 4)], violation=None, \
totals=Totals(distortion=70, source=4, channel=4, unused=(0,)))
        """
        job = cls.__new__(cls)
        job._open(data, "upload_archive", "upload_read_archive")
        return job

    @classmethod
    def write(
        cls,
        header: Header,
        rates: Iterable[int],
        units: Iterable[Iterable[Tuple[int, int]]],
    ) -> Job:
        """A job from its header and lists: the rates, which rise strictly, and for each unit its
        choices, each the grains that it takes and its distortion.

        Refused with 3 and 17 for the header, 16 where there are more or fewer rates, units or
        choices than it says, 4 for the rates and 5 for the choices.

        >>> header = Header(units=2, delay=1, decoder=4, buckets=[Bucket(3, 2)], rates=3, choices=2)
        >>> Job.write(header, [0, 2, 4], [[(4, 10)], [(2, 30), (5, 12), (2, 40)]])
        Traceback (most recent call last):
            ...
        upload_planner.Refused: refused 16: a list's length is not what the header calls for
        """
        rows = [list(unit) for unit in units]
        choices = [choice for row in rows for choice in row]
        sizes = [grains for grains, _ in choices]
        distortions = [distortion for _, distortion in choices]
        uneven = any(len(row) != header.choices for row in rows)
        if uneven and len(sizes) == header.units * header.choices:
            # The number is right though units have more choices or fewer: make it a wrong one.
            sizes.append(0)
        job, values = header._room(), _Lent(_U64, 1)
        _call(
            "upload_write",
            _lent_numbers(_U16, header.numbers),
            _lent_numbers(_U16, rates),
            _lent_numbers(_U16, sizes),
            _lent_numbers(_U32, distortions),
            job,
            values,
        )
        return cls(job.bytes()[: values[0]])

    @classmethod
    def trial(cls, header: Header, state: int) -> Job:
        """A trial job: one with this header, whose rates, grains and distortions are drawn from a
        starting state, a number of 32 bits. The same header and state give the same job on every
        machine.

        >>> header = Header(units=2, delay=0, decoder=8, buckets=[Bucket(8, 4)], rates=3, choices=2)
        >>> units = [[(26, 46_950), (0, 32_696)], [(6, 3_365), (57, 4_283)]]
        >>> Job.trial(header, 5) == Job.write(header, [1, 3, 6], units)
        True
        """
        state = operator.index(state)
        if not 0 <= state <= _most(_U32):
            raise ValueError("a starting state is from 0 to 4,294,967,295")
        job, values = header._room(), _Lent(_U64, 1)
        _call("upload_trial", _lent_numbers(_U16, header.numbers), state, job, values)
        return cls(job.bytes()[: values[0]])

    def _open(self, data: bytes, door: str, reading: str) -> None:
        lent, values = _lent_bytes(_data(data)), _Lent(_U64, 4)
        _call(door, lent, values)
        taken, _, self.intervals, self.table_words = values.array
        self.data = lent.bytes()[:taken]
        self._lent = _lent_bytes(self.data)
        self._read(reading)

    def _read(self, reading: str) -> None:
        # A choice takes six bytes of the job, so that these lists are long enough.
        most = len(self.data) // 6
        sizes, distortions = _Lent(_U16, most), _Lent(_U32, most)
        fields, rates, values = _Lent(_U16, _FIELDS_MOST), _Lent(_U16, _RATES_MOST), _Lent(_U64, 2)
        _call(reading, self._lent, fields, rates, sizes, distortions, values)
        self.header = Header._of(fields[: values[1]])
        self._rates, self._sizes, self._distortions = rates, sizes, distortions

    @property
    def rates(self) -> List[int]:
        """The rates in grains, as `write` takes them."""
        return self._rates[: self.header.rates]

    @property
    def units(self) -> List[List[Tuple[int, int]]]:
        """For each unit its choices, each the grains that it takes and its distortion, as `write`
        takes them."""
        each = self.header.choices
        count = self.header.units * each
        choices = list(zip(self._sizes[:count], self._distortions[:count]))
        return [choices[at : at + each] for at in range(0, count, each)]

    def _drains(self) -> bool:
        """Whether its line drains, so that opening takes it."""
        return all(bucket.drain > 0 for bucket in self.header.buckets)

    def __eq__(self, other: object) -> bool:
        return self.data == other.data if isinstance(other, Job) else NotImplemented

    def __hash__(self) -> int:
        return hash(self.data)

    def __reduce__(self):
        return type(self).archived, (self.data,)

    def __repr__(self) -> str:
        return f"<Job of {len(self.data)} bytes: {self.header}>"


def _job(given: Job) -> Job:
    if not isinstance(given, Job):
        raise TypeError("a Job is due: Job(data) opens the bytes of one")
    return given


def _data(given) -> bytes:
    """The bytes of an object that has them, and of no number or list."""
    return given if isinstance(given, bytes) else bytes(memoryview(given))


class Plan:
    """A plan: `bytes`, three for each interval, and `totals`, what it comes to, or None of a plan
    that was not made here. Two plans are equal if their bytes are.

    >>> Plan(bytes([2, 255, 255, 0, 1, 0, 1, 231, 3])).entries
    [(2, None), (0, 1), (1, 999)]
    """

    __slots__ = ("bytes", "totals")

    def __init__(self, data: bytes, totals: Optional[Totals] = None) -> None:
        self.bytes = _data(data)
        self.totals = totals

    @property
    def entries(self) -> List[Tuple[int, Optional[int]]]:
        """For each interval the index of its rate and that of its unit's choice, or None where it
        decodes no unit."""
        data = self.bytes
        pairs = [(data[at], data[at + 1] + 256 * data[at + 2]) for at in range(0, len(data) - 2, 3)]
        return [(rate, None if choice == _MARK else choice) for rate, choice in pairs]

    def __eq__(self, other: object) -> bool:
        return self.bytes == other.bytes if isinstance(other, Plan) else NotImplemented

    def __hash__(self) -> int:
        return hash(self.bytes)

    def __repr__(self) -> str:
        return f"<Plan {self.entries}, {self.totals}>"


#: What is taken for a plan: one made here, its bytes, or its entries.
Entries = Union[Plan, bytes, Iterable[Tuple[int, Optional[int]]]]


def _lent_plan(plan: Entries) -> _Lent:
    if isinstance(plan, Plan):
        return _lent_bytes(plan.bytes)
    if isinstance(plan, (bytes, bytearray, memoryview)):
        return _lent_bytes(_data(plan))
    data = bytearray()
    for rate, choice in plan:
        # A number that does not fit is no choice and not the mark either.
        choice = _MARK if choice is None else _fitting(choice, _MARK - 1)
        data += bytes([_fitting(rate, 255), choice % 256, choice // 256])
    return _lent_bytes(bytes(data))


def _plan(entries: _Lent, values: _Lent) -> Plan:
    """A plan from what planning wrote."""
    distortion, source, channel, *unused = values[: values.count]
    return Plan(entries.bytes(), Totals(distortion, source, channel, tuple(unused)))


def _replayed(job: Job, pins: _Lent, plan: Entries) -> Replayed:
    each = 1 + len(job.header.buckets)
    levels, values = _Lent(_U16, each * job.intervals), _Lent(_U64, 4 + each)
    _call("upload_replay_set", job._lent, pins, _lent_plan(plan), levels, values)
    number, interval, distortion, source, channel, *unused = values.array
    held = job.intervals if number == 0 else interval - 1
    rows = [tuple(levels[at : at + each]) for at in range(0, each * held, each)]
    if number == 0:
        return Replayed(rows, None, Totals(distortion, source, channel, tuple(unused)))
    return Replayed(rows, Violation(interval, number, _VIOLATIONS[number]), None)


def _command() -> str:
    """Where the command is that draws."""
    named = os.environ.get("UPLOAD_PLANNER_COMMAND")
    found = shutil.which(named or "upload-planner")
    if found is not None:
        return found
    if named:
        raise FileNotFoundError(
            f"UPLOAD_PLANNER_COMMAND names {named}, and there is no such command: {_BUILD}"
        )
    raise FileNotFoundError(f"the command upload-planner is not on PATH: {_BUILD}")


def _draw(job: Job, options: List[str]) -> None:
    """Has the command plan a job, with options of which one names the picture's file."""
    command = _command()
    done = subprocess.run(
        [command, "plan", "-", *options],
        input=job.data, stdout=subprocess.DEVNULL, stderr=subprocess.PIPE,
    )
    if done.returncode != 0:
        words = done.stderr.decode(errors="replace").strip()
        raise OSError(f"{command} ended with status {done.returncode}: {words}")


class Session:
    """What an editor does with a job: pins, lifts, plans. It keeps the set of pins and the table,
    so that the least total is known after every pin and lift. `job` is the job.

    Opening it plans once; that there is no plan is no refusal. A pin or a lift that is refused
    changes nothing. Several threads may use a session; they take turns. The table has four bytes a
    word, `job.table_words` words; even pictures take another one for a while.

    Refused with 17 where the job's line never drains.

    >>> header = Header(units=2, delay=0, decoder=4, buckets=[Bucket(0, 1)], rates=1, choices=3,
    ...                 level=4)
    >>> job = Job.write(header, [0], [[(4, 0), (2, 50), (0, 90)], [(4, 0), (2, 50), (0, 90)]])
    >>> session = Session(job)

    Four grains are there for two units, and nothing is sent. All of them for unit 1 lose 0 + 90,
    two for each lose 50 + 50. Even pictures hold the worst unit to 50.

    >>> session.plan().entries
    [(0, 0), (0, 2)]
    >>> session.plan(even=True).entries
    [(0, 1), (0, 1)]
    >>> session.plan(even=True).totals.distortion
    100
    >>> session.least_total
    90
    """

    def __init__(self, job: Job) -> None:
        self.job = _job(job)
        self._lock = threading.Lock()
        self._set = _Lent(_U32, _SET_NUMBERS)
        # That of the pins which stand, for the least total: each call leaves it so.
        self._table = _Lent(_U32, job.table_words if job._drains() else 0)
        self._seen = _Lent(_U64, 1, [_NEVER])
        _call("upload_set", job._lent, self._set)
        try:
            self._seen.array[0] = self._planned(self._table, _TOTAL, _EARLY).totals.distortion
        except NoPlan:
            pass

    def _planned(self, table: _Lent, aim: int, order: int) -> Plan:
        entries = _Lent(_U8, 3 * self.job.intervals)
        values = _Lent(_U64, 3 + len(self.job.header.buckets))
        _call("upload_plan_set", self.job._lent, self._set, aim, order, table, entries, values)
        return _plan(entries, values)

    def pin(self, unit: int, choice: int) -> None:
        """Holds a unit, counted from 1, at a choice, counted from 0. `least_total` then has what
        the best plan comes to; that there is none is no refusal.

        Refused with 7 where there is no such unit, 8 where it has no such choice, 9 where it is
        pinned already.
        """
        unit, choice = _fitting(unit, _most(_U16)), _fitting(choice, _most(_U16))
        with self._lock:
            self._pin(unit, choice)

    def lift(self, unit: int) -> None:
        """Leaves a unit free again, and goes on as `pin` does.

        Refused with 7 where there is no such unit, 10 where it is not pinned.
        """
        unit = _fitting(unit, _most(_U16))
        with self._lock:
            self._lift(unit)

    def see(self, unit: int, choice: int) -> Optional[int]:
        """What `least_total` would be with a unit held at a choice, too: pins it, and lifts it
        again. The pins that stand stay as they are.

        Refused as `pin` is.

        Unit 2 of Job A takes five grains at its choice 0, and the decoder holds four.

        >>> header = Header(units=2, delay=1, decoder=4, buckets=[Bucket(3, 2)], rates=3, choices=2)
        >>> job = Job.write(header, [0, 2, 4], [[(4, 10), (2, 30)], [(5, 12), (2, 40)]])
        >>> session = Session(job)
        >>> session.see(1, 1), session.see(2, 0), session.see(2, 1)
        (70, None, 50)
        >>> session.least_total, session.pins
        (50, {})
        """
        unit, choice = _fitting(unit, _most(_U16)), _fitting(choice, _most(_U16))
        with self._lock:
            self._pin(unit, choice)
            try:
                return self._least_total()
            finally:
                self._lift(unit)

    def _pin(self, unit: int, choice: int) -> None:
        _call(
            "upload_pin_and_see", self.job._lent, self._set, unit, choice, self._table, self._seen
        )

    def _lift(self, unit: int) -> None:
        _call("upload_lift_and_see", self.job._lent, self._set, unit, self._table, self._seen)

    def _least_total(self) -> Optional[int]:
        return None if self._seen[0] == _NEVER else self._seen[0]

    @property
    def least_total(self) -> Optional[int]:
        """The least total distortion with the pins that stand, or None where no plan holds
        them."""
        with self._lock:
            return self._least_total()

    @property
    def pins(self) -> Dict[int, int]:
        """The choice of each unit that is pinned."""
        with self._lock:
            return self._pins()

    def _pins(self) -> Dict[int, int]:
        pins = self._set[_SET_PINS : _SET_PINS + self.job.header.units]
        return {unit: pin for unit, pin in enumerate(pins, 1) if pin != _MARK}

    @property
    def pin_totals(self) -> PinTotals:
        """What the pins come to.

        >>> header = Header(units=2, delay=1, decoder=4, buckets=[Bucket(3, 2)], rates=3, choices=2)
        >>> job = Job.write(header, [0, 2, 4], [[(4, 10), (2, 30)], [(5, 12), (2, 40)]])
        >>> session = Session(job)
        >>> session.pin(2, 0)
        >>> session.pin(1, 1)
        >>> session.pin_totals
        PinTotals(count=2, grains=7, distortion=42)
        """
        with self._lock:
            return PinTotals(*self._set[_SET_TOTALS:_SET_NUMBERS])

    def plan(self, even: bool = False, late: bool = False) -> Plan:
        """The best plan with the pins that stand: of least total distortion, or with `even` the one
        whose greatest distortion of a unit is least, and then the total. Of plans as good it is the
        one that sends early, or with `late` the one that sends late.

        Raises NoPlan exactly where `least_total` is None.
        """
        order = _LATE if late else _EARLY
        with self._lock:
            if even:
                return self._planned(_Lent(_U32, self.job.table_words), _EVEN, order)
            # Planning for the total leaves the table as it is.
            return self._planned(self._table, _TOTAL, order)

    def replay(self, plan: Entries) -> Replayed:
        """Follows a plan with the pins that stand, interval by interval up to its first violation.
        A plan with a violation is no refusal.

        Refused with 14 where it is no plan of the job.
        """
        with self._lock:
            return _replayed(self.job, self._set, plan)

    def report(self, plan: Entries) -> List[int]:
        """The effective buffer sizes of a plan, as the function `report` has them: no pin counts
        in them."""
        return report(self.job, plan)

    def picture(
        self,
        path: Union[str, os.PathLike],
        even: bool = False,
        late: bool = False,
        title: str = "Best plan",
    ) -> None:
        """Draws the plan that `plan` gives with the pins that stand, as SVG, in a file of this
        name, with this title above it. The command `upload-planner` draws it: the one that the
        environment variable UPLOAD_PLANNER_COMMAND names, otherwise the one on PATH.

        Raises NoPlan where there is no plan, FileNotFoundError where the command is not there,
        and OSError with its words where it fails, as when the file cannot be written.

        >>> header = Header(units=2, delay=1, decoder=4, buckets=[Bucket(3, 2)], rates=3, choices=2)
        >>> job = Job.write(header, [0, 2, 4], [[(4, 10), (2, 30)], [(5, 12), (2, 40)]])
        >>> session = Session(job)
        >>> session.pin(1, 1)

        This draws where the command is named.

        >>> import os, tempfile
        >>> if os.environ.get("UPLOAD_PLANNER_COMMAND"):
        ...     with tempfile.TemporaryDirectory() as folder:
        ...         path = os.path.join(folder, "plan.svg")
        ...         session.picture(path, title="Unit 1 is coarse")
        ...         with open(path, encoding="utf-8") as drawn:
        ...             assert "<title>Unit 1 is coarse</title>" in drawn.read()

        No plan holds unit 2 at its choice 0.

        >>> session.pin(2, 0)
        >>> session.picture("plan.svg")
        Traceback (most recent call last):
            ...
        upload_planner.NoPlan: refused 13: no plan is admissible
        """
        with self._lock:
            pins, least = self._pins(), self._least_total()
        if least is None:
            raise NoPlan()
        options = ["--picture", os.path.abspath(path), "--title", title]
        for unit, choice in pins.items():
            options += ["--pin", f"{unit}={choice}"]
        if even:
            options.append("--even")
        if late:
            options.append("--late")
        _draw(self.job, options)

    def larger_buckets(self) -> List[Tuple[int, Optional[int]]]:
        """What a larger bucket would bring with the pins that stand: each size of the first bucket
        from the job's own to 255, and the least total, or None where there is no plan. The session
        stays as it is.

        Here is Job A with a bucket of 0 and a drain of 1. In a bucket of 1 there is room for 2, 0
        and 2 grains, in one of 3 for 2, 2 and 2.

        >>> header = Header(units=2, delay=1, decoder=4, buckets=[Bucket(0, 1)], rates=3, choices=2)
        >>> job = Job.write(header, [0, 2, 4], [[(4, 10), (2, 30)], [(5, 12), (2, 40)]])
        >>> larger = Session(job).larger_buckets()
        >>> larger[:5]
        [(0, None), (1, 70), (2, 70), (3, 50), (4, 50)]
        >>> larger[-1]
        (255, 50)
        """
        own = self.job.header.buckets[0].size
        words = self.job.table_words // (own + 1) * (_LARGEST_SIZE + 1)
        table, totals = _Lent(_U32, words), _Lent(_U32, _LARGEST_SIZE + 1 - own)
        with self._lock:
            _call("upload_sizes", self.job._lent, self._set, table, totals)
        return [(own + i, None if n == _NEVER else n) for i, n in enumerate(totals.array)]

    def change(
        self,
        plan: Entries,
        after: int,
        rates: Iterable[int],
        sizes: Iterable[int],
        drains: Iterable[int],
        late: bool = False,
    ) -> Plan:
        """Plans the rest of the programme afresh when the carrier's contract changes after an
        interval. Its entries up to there remain, with the levels that they led to; the others are
        of the new rates. `sizes` and `drains` have a number for each bucket. The pins that stand
        hold, and the session stays with the job's own contract.

        Refused with 14 for the plan; 3, 17 and 4 for the contract; 18 where `after` is not from 1
        to T - 1; 19 where the plan has a violation up to there; 20 where the level of a bucket is
        over its new size. Raises NoPlan where there is no plan of the rest.

        Job A's plan has sent four grains after interval 1, and the bucket holds 2. If the carrier
        then sells rates of 0, 1 and 3, a bucket of 2 and a drain of 1, unit 1 has to make do with
        two grains. One interval later unit 1 has had its four.

        >>> header = Header(units=2, delay=1, decoder=4, buckets=[Bucket(3, 2)], rates=3, choices=2)
        >>> job = Job.write(header, [0, 2, 4], [[(4, 10), (2, 30)], [(5, 12), (2, 40)]])
        >>> session = Session(job)
        >>> plan = session.plan()
        >>> changed = session.change(plan, 1, rates=[0, 1, 3], sizes=[2], drains=[1])
        >>> changed.entries
        [(2, None), (0, 1), (1, 1)]
        >>> changed.totals
        Totals(distortion=70, source=4, channel=5, unused=(0,))
        >>> session.change(plan, 2, rates=[0, 1, 3], sizes=[2], drains=[1]).totals
        Totals(distortion=50, source=6, channel=7, unused=(0,))
        >>> session.change(plan, 1, rates=[0, 1, 3], sizes=[1], drains=[1])
        Traceback (most recent call last):
            ...
        upload_planner.Refused: refused 20: the level of a bucket is over its size in the new \
contract or the next programme
        """
        header, sizes = self.job.header, list(sizes)
        words = (self.job.intervals + 1) * (header.decoder + 1)
        for size, largest, _ in zip(sizes, (_LARGEST_SIZE, _LARGEST_SECOND), header.buckets):
            # A size out of range is refused, however long the table.
            words *= 1 + max(0, min(operator.index(size), largest))
        entries = _Lent(_U8, 3 * self.job.intervals)
        values = _Lent(_U64, 3 + len(header.buckets))
        lent = [_lent_numbers(_U16, numbers) for numbers in (rates, sizes, drains)]
        old, first = _lent_plan(plan), _fitting(after, _most(_U32))
        order = _LATE if late else _EARLY
        with self._lock:
            _call(
                "upload_change",
                self.job._lent, self._set, old, first, *lent, order,
                _Lent(_U32, words), entries, values,
            )
        return _plan(entries, values)

    @property
    def table(self) -> memoryview:
        """The table for the pins that stand, to be read: word (t x (D + 1) + b) x (K + 1) + l is
        the least distortion that intervals t + 1 to T can be had for from levels b and l after
        interval t, 4,294,967,295 where there is no way. With two buckets it is word
        ((t x (D + 1) + b) x (K + 1) + l) x (K2 + 1) + m. A pin or a lift writes it anew.

        From the start Job A loses 50. After interval 2, with two grains in the decoder and an empty
        bucket, unit 2 still loses 40, and after interval 3 nothing more is lost.

        >>> header = Header(units=2, delay=1, decoder=4, buckets=[Bucket(3, 2)], rates=3, choices=2)
        >>> job = Job.write(header, [0, 2, 4], [[(4, 10), (2, 30)], [(5, 12), (2, 40)]])
        >>> table = Session(job).table
        >>> table[0], table[(2 * 5 + 2) * 4], table[3 * 5 * 4], len(table)
        (50, 40, 0, 80)
        """
        return memoryview(self._table.array).cast("B").cast("I").toreadonly()

    def __repr__(self) -> str:
        return f"<Session: pins {self.pins}, least total {self.least_total}>"


def replay(job: Job, plan: Entries) -> Replayed:
    """Follows a plan without pins, as `Session.replay` does with those that stand. It takes a
    stored job too, whose line never drains.

    Refused with 14 where it is no plan of the job.

    >>> header = Header(units=2, delay=1, decoder=4, buckets=[Bucket(3, 2)], rates=3, choices=2)
    >>> job = Job.write(header, [0, 2, 4], [[(4, 10), (2, 30)], [(5, 12), (2, 40)]])

    Four grains in each interval are too many in interval 2, where four are there.

    >>> replay(job, [(2, None), (2, 0), (2, 1)])
    Replayed(levels=[(4, 2)], violation=Violation(interval=2, number=2, words='decoder over'), \
totals=None)
    """
    numbers = _Lent(_U32, _SET_NUMBERS)
    _call("upload_archive_set", _job(job)._lent, numbers)
    return _replayed(job, numbers, plan)


def report(job: Job, plan: Entries) -> List[int]:
    """The effective buffer sizes of a plan, admissible or not: for i from 0 to N the grains that
    intervals i + 1 to i + d send.

    Refused with 14 where it is no plan of the job.

    >>> header = Header(units=2, delay=1, decoder=4, buckets=[Bucket(3, 2)], rates=3, choices=2)
    >>> job = Job.write(header, [0, 2, 4], [[(4, 10), (2, 30)], [(5, 12), (2, 40)]])
    >>> report(job, [(2, None), (0, 1), (1, 1)])
    [4, 0, 2]
    """
    sums = _Lent(_U32, _job(job).header.units + 1)
    _call("upload_report", job._lent, _lent_plan(plan), sums)
    return list(sums.array)


def turn(job: Job, old: bytes) -> Plan:
    """The plan that was stored with two bytes an interval, 255 where there is no unit. Its totals
    are None; replay tells them.

    Refused with 14 where the job has more than 31 choices, or `old` is no such plan.

    >>> header = Header(units=2, delay=1, decoder=4, buckets=[Bucket(3, 2)], rates=3, choices=2)
    >>> job = Job.write(header, [0, 2, 4], [[(4, 10), (2, 30)], [(5, 12), (2, 40)]])
    >>> turn(job, bytes([0, 255, 1, 1, 1, 1])).entries
    [(0, None), (1, 1), (1, 1)]
    """
    entries = _Lent(_U8, 3 * _job(job).intervals)
    _call("upload_turn", job._lent, _lent_bytes(_data(old)), entries)
    return Plan(entries.bytes())


def playlist(jobs: Iterable[Job]) -> List[Plan]:
    """The plans of programmes that are sent back to back over one line, 1 to 64: each starts from
    the bucket levels at which the one before it ended, and is the best from there, in the late
    order and without pins.

    Raises PlaylistRefused: with 21 where there is no programme or more than 64; of a programme with
    17 for its job, 22 where its line has another number of buckets than the first one's, 20 where
    the level of a bucket is over its size, and 13 where there is no plan.

    Here is Job A with a bucket of 5 and a drain of 1. The first time it leaves four grains in the
    bucket, the second time five.

    >>> header = Header(units=2, delay=1, decoder=4, buckets=[Bucket(5, 1)], rates=3, choices=2)
    >>> job = Job.write(header, [0, 2, 4], [[(4, 10), (2, 30)], [(5, 12), (2, 40)]])
    >>> for plan in playlist([job, job]):
    ...     print(plan.entries, plan.totals.distortion, plan.totals.unused)
    [(0, None), (2, 0), (1, 1)] 50 (1,)
    [(0, None), (1, 1), (1, 1)] 70 (0,)
    >>> try:
    ...     playlist([job, job, job])
    ... except PlaylistRefused as refused:
    ...     print(refused.place, refused.number, refused)
    3 13 programme 3: refused 13: no plan is admissible
    """
    # One programme too many is refused as many are.
    sent = [_job(job) for job in jobs][: _PROGRAMMES + 1]
    places: Dict[bytes, int] = {}
    data, programmes = bytearray(), []
    for job in sent:
        if job.data not in places:
            places[job.data] = len(data)
            data += job.data
        programmes += [places[job.data], len(job.data)]

    # The library plans no further than to a job that is refused for its line.
    planned = []
    for job in sent[:_PROGRAMMES]:
        if not job._drains() or len(job.header.buckets) != len(sent[0].header.buckets):
            break
        planned.append(job)
    table = _Lent(_U32, max((job.table_words for job in planned), default=0))
    entries = _Lent(_U8, sum(3 * job.intervals for job in planned))
    totals = _Lent(_U64, _PROGRAMME_TOTALS * len(sent))
    bytes_of_jobs, numbers = _lent_bytes(bytes(data)), _lent_numbers(_U32, programmes)
    answer = _answer("upload_playlist", bytes_of_jobs, numbers, table, entries, totals)
    if answer != 0:
        raise PlaylistRefused(answer % 256, answer // 256 or None)

    plans, written = [], entries.bytes()
    for at, job in enumerate(planned):
        distortion, source, channel, *unused = totals[
            _PROGRAMME_TOTALS * at : _PROGRAMME_TOTALS * (at + 1)
        ]
        of_buckets = tuple(unused[: len(job.header.buckets)])
        length = 3 * job.intervals
        plans.append(Plan(written[:length], Totals(distortion, source, channel, of_buckets)))
        written = written[length:]
    return plans
