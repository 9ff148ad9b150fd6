"""unloop takes loops out of gate netlists: by proof, not by test. This module calls the proved library from Python.

A Block is read from a text, or made of stored words; its methods are the operations of the library. What is refused raises a
Refusal. The library is proved; this file, which lends it the room for its results and names what it answers, is tested.

>>> block = Block.read("(in s)\\n(gate p (and s q))\\n(gate q (or s p))\\n(out y q)\\n")
>>> block.verdict()
Verdict(settled=2, lowest_unsettled=None)
>>> print(block.render(), end="")
(in s)
(gate _0 (and s 0))
(gate _1 (or s _0))
(gate _2 (and s _1))
(gate _3 (or s _2))
(out y _3)
>>> Block.read("(in _a)\\n")
Traceback (most recent call last):
    ...
unloop.Refusal: 2 form: syntax error at byte 4

A value is False, True, or None for undefined; 0 and 1 are taken for False and True. The library is sought where the environment
variable UNLOOP_SHARED says, then where bin/install puts it as seen from this file, then by the system's loader. Any number of
threads may call, with 640 KiB of stack left (threading.stack_size).
"""

from __future__ import annotations

import ctypes
import os
from array import array
from dataclasses import dataclass
from pathlib import Path
from typing import Iterable, List, Optional, Sequence, Tuple, Union

__version__ = "0.1.0"
__all__ = ["Assignment", "Block", "Cells", "Disagreement", "Gathered", "Groups", "Refusal", "Settled", "Value", "Verdict", "line"]

# False, True, or None for undefined.
Value = Optional[bool]

# Room for every result, as the header's enum unloop_room has it.
_BLOCK_WORDS = 5268
_WRITTEN_BYTES = 58098
_COVER_WORDS = 1062882
_CELLS_WORDS = 5120
_RECORD_WORDS = 5

# Each refusal's word and message, by its number; {} is its detail.
_REFUSALS = {
    1: ("overlong", "the text has more than 61440 bytes"),
    2: ("form", "syntax error at byte {}"),
    3: ("crowded", "more than 12 inputs, 8 never lines, 1024 gates or 16 outputs"),
    4: ("twice", "the name at byte {} is declared or given already"),
    5: ("unknown", "the name at byte {} is not declared, or not an input's in a never line"),
    6: ("torn", "the words are no stored block, or no cells"),
    7: ("setting", "the setting doesn't have one value (0, 1 or undefined) for each input"),
    8: ("swollen", "the rendering would have more than 1024 gates"),
    9: ("undecided", "setting {} is not settled"),
    10: ("looped", "some gate reads itself or a gate behind it"),
    11: ("short", "the slice for the result is too small"),
    12: ("strangers", "the blocks do not have the same input names and ports in the same order"),
    13: ("order", "the list does not have each gate number once"),
}


class Refusal(ValueError):
    """Why an operation gave no result: its number, its trade word, and its detail (a byte's offset, or a setting's number) or 0."""

    def __init__(self, number: int, detail: int = 0) -> None:
        self.number = number
        self.detail = detail
        self.word, message = _REFUSALS[number]
        super().__init__(f"{number} {self.word}: {message.format(detail)}")


class _Reply(ctypes.Structure):
    number: int
    count: int
    detail: int
    _fields_ = [("number", ctypes.c_size_t), ("count", ctypes.c_size_t), ("detail", ctypes.c_size_t)]


class _Span(ctypes.Structure):
    start: int
    length: int
    _fields_ = [("start", ctypes.c_size_t), ("length", ctypes.c_size_t)]


# The slices that each function takes; all but line answer with a reply. A number stands before the slices of run, behind that of line.
_FUNCTIONS = {
    "read": 2, "write": 2, "settle": 3, "pass": 3, "sheet": 2, "verdict": 1, "cover": 2, "groups": 2, "render": 2, "compare": 2,
    "compare_cells": 3, "bring": 2, "cells": 2, "gather": 3, "scatter": 3,
}  # fmt: skip


def _load() -> ctypes.CDLL:
    beside = Path(__file__).resolve().parent / "../../../lib/libunloop.so.1"
    named = os.environ.get("UNLOOP_SHARED")
    library = ctypes.CDLL(named or (str(beside.resolve()) if beside.exists() else "libunloop.so.1"))
    piece = [ctypes.c_void_p, ctypes.c_size_t]
    for name, slices in _FUNCTIONS.items():
        function = getattr(library, "unloop_" + name)
        function.argtypes, function.restype = piece * slices, _Reply
    library.unloop_run.argtypes, library.unloop_run.restype = [ctypes.c_size_t, *piece * 3], _Reply
    library.unloop_line.argtypes, library.unloop_line.restype = [*piece, ctypes.c_size_t], _Span
    return library


_library = _load()


def _words(words: Iterable[int]) -> array[int]:
    try:
        return array("H", words)
    except OverflowError:
        raise ValueError("a word is a number from 0 to 65535") from None


def _bytes(text: Union[str, bytes]) -> array[int]:
    return array("B", text.encode() if isinstance(text, str) else text)


def _codes(setting: Sequence[Value]) -> array[int]:
    if any(value not in (False, True, None) for value in setting):
        raise ValueError("a value is False, True, or None for undefined")
    return array("B", [2 if value is None else int(value) for value in setting])


def _value(code: int) -> Value:
    return None if code == 2 else code == 1


def _call(name: str, *slices: array[int], before: Sequence[int] = ()) -> _Reply:
    """The reply of an operation to these slices, which stay alive and in their places until it has answered."""
    pieces = [number for elements in slices for number in elements.buffer_info()]
    if name == "sheet":
        pieces[-1] //= _RECORD_WORDS
    reply: _Reply = getattr(_library, "unloop_" + name)(*before, *pieces)
    if reply.number != 0:
        raise Refusal(reply.number, reply.detail)
    return reply


def _room(code: str, length: int) -> array[int]:
    return array(code, bytes(length * array(code).itemsize))


@dataclass(frozen=True)
class Verdict:
    """How many settings that may come are settled, and the lowest that isn't; input i has weight 2**i."""

    settled: int
    lowest_unsettled: Optional[int]

    def is_sound(self) -> bool:
        """Whether every setting that may come is settled."""
        return self.lowest_unsettled is None


@dataclass(frozen=True)
class Assignment:
    """A partial assignment of the inputs: the mask of those that it fixes, and of those that it fixes at 1; bit i is for input i."""

    fixed: int
    ones: int

    def value(self, node: int) -> Value:
        """What it fixes an input at, or None.

        >>> [Assignment(fixed=3, ones=2).value(node) for node in range(3)]
        [False, True, None]
        """
        return bool(self.ones >> node & 1) if self.fixed >> node & 1 else None


@dataclass(frozen=True)
class Disagreement:
    """The lowest settled setting under which an output shows another value, and the lowest such output, from 0."""

    setting: int
    output: int


@dataclass(frozen=True)
class Groups:
    """The strongly connected groups of the gates: how many, and the number of each gate's."""

    count: int
    of_gates: Tuple[int, ...]


@dataclass(frozen=True)
class Settled:
    """The value of each gate, and the rounds that changed something."""

    values: Tuple[Value, ...]
    rounds: int


@dataclass(frozen=True)
class Gathered:
    """A block with the gates of each group side by side, and the old number of each of its gates."""

    block: Block
    order: Tuple[int, ...]


def _disagreement(told: _Reply) -> Optional[Disagreement]:
    return Disagreement(told.detail, told.count - 1) if told.count else None


@dataclass(frozen=True)
class Cells:
    """Cells over some inputs, as the lookup-cell board has them: five words each, four operands and the truth word. Words that are no
    cells over so many inputs are refused with 6.

    >>> inverter = Cells(1, (0, 65534, 65534, 65534, 0x5555))
    >>> inverter.run([False])
    (True,)
    """

    inputs: int
    words: Sequence[int]

    def __post_init__(self) -> None:
        object.__setattr__(self, "words", tuple(self.words))
        if not 0 <= self.inputs < 1 << 64:
            raise ValueError("not a number of inputs")
        try:
            self._run(array("B"), array("B"))
        except Refusal as refusal:  # the words are tested before all else
            if refusal.number == 6:
                raise

    def run(self, setting: Sequence[Value]) -> Tuple[bool, ...]:
        """The value of each cell, from False or True an input."""
        values = _room("B", len(self.words))
        told = self._run(_codes(setting), values)
        return tuple(code == 1 for code in values[: told.count])

    def _run(self, setting: array[int], values: array[int]) -> _Reply:
        return _call("run", _words(self.words), setting, values, before=[self.inputs])


@dataclass(frozen=True)
class Block:
    """A block of gates by its stored words (unloop-netlist(5)). Words that are no block's are refused with 6.

    >>> Block([1, 0, 0, 0])
    Traceback (most recent call last):
        ...
    unloop.Refusal: 6 torn: the words are no stored block, or no cells
    """

    words: Sequence[int]

    def __post_init__(self) -> None:
        object.__setattr__(self, "words", tuple(self.words))
        _call("sheet", self._stored(), array("H"))  # tests the words before all else, and has no record to answer

    @classmethod
    def read(cls, text: Union[str, bytes]) -> Block:
        """The block of a netlist text."""
        return cls._made("read", _bytes(text))

    @classmethod
    def bring(cls, old: Iterable[int]) -> Block:
        """The block of words that were stored before there were never lines, with three counts and at most 10 inputs."""
        return cls._made("bring", _words(old))

    @classmethod
    def _made(cls, name: str, *given: array[int]) -> Block:
        room = _room("H", _BLOCK_WORDS)
        told = _call(name, *given, room)
        return cls(tuple(room[: told.count]))

    def _stored(self) -> array[int]:
        return _words(self.words)

    @property
    def inputs(self) -> int:
        """How many inputs it has."""
        return self.words[0]

    @property
    def gates(self) -> int:
        """How many gates it has."""
        return self.words[1]

    @property
    def outputs(self) -> int:
        """How many outputs it has."""
        return self.words[2]

    @property
    def input_names(self) -> Tuple[str, ...]:
        """The names of the inputs.

        >>> Block.read("(in mute)\\n(in k48)\\n").input_names
        ('mute', 'k48')
        """
        return tuple(_name(self.words[4 + 4 * node : 8 + 4 * node]) for node in range(self.inputs))

    @property
    def never_lines(self) -> Tuple[Assignment, ...]:
        """Its never lines: a setting that agrees with one of them never comes."""
        first = 4 + 4 * self.inputs
        masks = self.words[first : first + 2 * self.words[3]]
        return tuple(map(Assignment, masks[::2], masks[1::2]))

    @property
    def output_names(self) -> Tuple[str, ...]:
        """The ports of the outputs."""
        first = len(self.words) - 5 * self.outputs
        return tuple(_name(self.words[first + 5 * port : first + 5 * port + 4]) for port in range(self.outputs))

    @property
    def nodes_shown(self) -> Tuple[int, ...]:
        """What each output shows: an input's number, or a gate's behind the inputs."""
        first = len(self.words) - 5 * self.outputs
        return tuple(self.words[first + 4 :: 5]) if self.outputs else ()

    def write(self) -> str:
        """The block as a text; gates are named by their numbers."""
        room = _room("B", _WRITTEN_BYTES)
        told = _call("write", self._stored(), room)
        return room[: told.count].tobytes().decode("ascii")

    def __str__(self) -> str:
        return self.write()

    def settle(self, setting: Sequence[Value]) -> Settled:
        """The settled value of each gate, from one value an input.

        >>> Block.read("(in s)\\n(gate p (and s q))\\n(gate q (or s p))\\n").settle([1])
        Settled(values=(True, True), rounds=2)
        """
        values, rounds = self._valued("settle", setting)
        return Settled(values, rounds)

    def sweep(self, setting: Sequence[Value]) -> Tuple[Value, ...]:
        """The same values by the operation Pass, where no gate reads itself or a gate behind it."""
        return self._valued("pass", setting)[0]

    def _valued(self, name: str, setting: Sequence[Value]) -> Tuple[Tuple[Value, ...], int]:
        values = _room("B", self.gates)
        told = _call(name, self._stored(), _codes(setting), values)
        return tuple(map(_value, values)), told.count

    def sheet(self, settings: Iterable[Assignment]) -> List[Optional[Tuple[Value, ...]]]:
        """The values of the outputs under each setting; an input that it doesn't fix is undefined. None for one that is refused with 7:
        it fixes an input that the block doesn't have, or has one at 1 that it doesn't fix.

        >>> Block.read("(in a)\\n(out y a)\\n").sheet([Assignment(1, 1), Assignment(0, 0), Assignment(2, 0)])
        [(True,), (None,), None]
        """
        records = _words(word for setting in settings for word in (setting.fixed, setting.ones, 0, 0, 0))
        _call("sheet", self._stored(), records)
        return [self._shown(records[first : first + 5]) for first in range(0, len(records), 5)]

    def _shown(self, record: array[int]) -> Optional[Tuple[Value, ...]]:
        _, _, number, defined, ones = record
        shown = Assignment(defined, ones)
        return None if number else tuple(shown.value(port) for port in range(self.outputs))

    def verdict(self) -> Verdict:
        """How many settings are settled: every output shows 0 or 1. Settings that never come are neither counted nor told."""
        told = _call("verdict", self._stored())
        return Verdict(told.count, told.detail if told.detail < 1 << self.inputs else None)

    def cover(self) -> List[Assignment]:
        """The minimal partial assignments under which every setting that may come is settled, ascending.

        >>> Block.read("(in a)\\n(in b)\\n(gate p (and a q))\\n(gate q (or b p))\\n(out y q)\\n").cover()
        [Assignment(fixed=1, ones=0), Assignment(fixed=2, ones=2)]
        """
        room = _room("H", _COVER_WORDS)
        told = _call("cover", self._stored(), room)
        return list(map(Assignment, room[: 2 * told.count : 2], room[1 : 2 * told.count : 2]))

    def groups(self) -> Groups:
        """The strongly connected groups of its gates, in the order in which they are rendered."""
        room = _room("H", self.gates)
        told = _call("groups", self._stored(), room)
        return Groups(told.count, tuple(room))

    def render(self) -> Block:
        """The loop-free block with the same outputs under every setting that may come, and the same never lines."""
        return self._made("render", self._stored())

    def compare(self, theirs: Block) -> Optional[Disagreement]:
        """Whether a loop-free block made elsewhere is as good as this one. None: it is accepted.

        >>> ours = Block.read("(in a)\\n(in b)\\n(gate p (and a q))\\n(gate q (or b p))\\n(out y q)\\n")
        >>> ours.compare(Block.read("(in a)\\n(in b)\\n(out y b)\\n"))
        >>> ours.compare(Block.read("(in a)\\n(in b)\\n(out y a)\\n"))
        Disagreement(setting=2, output=0)
        """
        return _disagreement(_call("compare", self._stored(), theirs._stored()))

    def cells(self) -> Cells:
        """The cells of a block in which no gate reads itself or a gate behind it, in the order of its gates."""
        room = _room("H", _CELLS_WORDS)
        told = _call("cells", self._stored(), room)
        return Cells(self.inputs, tuple(room[: told.count]))

    def compare_cells(self, cells: Cells, shown: Sequence[int]) -> Optional[Disagreement]:
        """Whether cells made elsewhere are as good as this block, each output shown by the node listed for it: an input's number, or
        a cell's behind the inputs. None: they are accepted. Cells over another number of inputs are refused with 12.

        >>> block = Block.read("(in a)\\n(gate p (not a))\\n(out y p)\\n")
        >>> block.compare_cells(block.cells(), block.nodes_shown)
        >>> block.compare_cells(block.cells(), [0])
        Disagreement(setting=0, output=0)
        """
        if cells.inputs != self.inputs:
            raise Refusal(12)
        return _disagreement(_call("compare_cells", self._stored(), _words(cells.words), _words(shown)))

    def gather(self) -> Gathered:
        """The block with its gates numbered afresh by group, ascending within it."""
        order = _room("H", self.gates)
        room = _room("H", len(self.words))
        told = _call("gather", self._stored(), room, order)
        return Gathered(Block(tuple(room[: told.count])), tuple(order))

    def scatter(self, order: Sequence[int]) -> Block:
        """The block with its gates under other numbers: each gets the one that stands in its place of the list."""
        return self._made("scatter", self._stored(), _words(order))


def _name(words: Sequence[int]) -> str:
    return b"".join(word.to_bytes(2, "little") for word in words).rstrip(b"\0").decode("ascii")


def line(text: Union[str, bytes], place: int) -> Tuple[int, int]:
    """The start and the length, in bytes, of the line that holds a place, without its LF; a place past the end counts as the end.

    >>> line("(in a)\\n(in b)\\n", 9)
    (7, 6)
    """
    content = _bytes(text)
    span = _library.unloop_line(*content.buffer_info(), min(max(place, 0), len(content)))
    return span.start, span.length
