"""What an operation gives: nothing before its dispatch; then the words, or the reason why there are none."""

from __future__ import annotations

import numbers
import operator
from collections.abc import Iterator, Sequence
from typing import Any

from ipbus.errors import Interrupted, IpbusError, NotDispatched
from ipbus.packets import WHOLE
from ipbus.registers import shift_of

# what a result is before it has a value or an error
QUEUED = NotDispatched("not dispatched yet")
UNDER_WAY = Interrupted("the dispatch was interrupted while this was under way: it may have been executed")


class Result:
    """What one call gives. `verb` and `name` say what was asked. The answers of its transactions fill it, in their
    order: each is heard or has failed."""

    __slots__ = ("_error", "_value", "name", "verb")

    def __init__(self, verb: str, name: str) -> None:
        self.verb = verb
        self.name = name
        self._value: Any = None
        self._error: IpbusError | None = QUEUED

    @property
    def told(self) -> str:
        """What was asked, as the line of a script begins."""
        return f"{self.verb} {self.name}"

    def valid(self) -> bool:
        """Whether the operation was done, so that `value()` raises nothing."""
        return self._error is None

    @property
    def error(self) -> IpbusError | None:
        """Why there is no value, or None if there is one."""
        if self._is_open():
            return self._error.about(self.told)
        return self._error

    def value(self) -> Any:
        """The value. If there is none the reason is raised, as an `IpbusError`."""
        if self._error is not None:
            raise self.error.with_traceback(None)
        return self._value

    def _is_open(self) -> bool:
        return self._error is UNDER_WAY or self._error is QUEUED

    def mark_sent(self) -> None:
        """From now on the operation may be executed."""
        self._error = UNDER_WAY

    def hear(self, words: Sequence[int]) -> None:
        """Takes the words of the next transaction, which was done."""
        raise NotImplementedError

    def fail(self, error: IpbusError) -> None:
        """The next transaction was not done, for this reason, so there is no value, whatever comes of later ones."""
        if self._is_open():
            self.settle(None, error.about(self.told))

    def settle(self, value: Any, error: IpbusError | None = None) -> None:
        """Sets what the operation came to: a value, or an error of this operation."""
        self._value = value
        self._error = error

    def __repr__(self) -> str:
        if self._error is None:
            return repr(self._value)
        return f"<{self.told}: {type(self._error).__name__}>"


class Written(Result):
    """What a write of so many transactions gives: `valid()` says whether it was done; `value()` is None, or raises the
    reason."""

    __slots__ = ("_left",)

    def __init__(self, verb: str, name: str, transactions: int = 1) -> None:
        super().__init__(verb, name)
        self._left = transactions

    def hear(self, words: Sequence[int]) -> None:
        """The next transaction was done."""
        self._left -= 1
        if self._left == 0 and self._is_open():
            self.settle(None)

    def __repr__(self) -> str:
        return f"<{self.told}: {'done' if self._error is None else type(self._error).__name__}>"


class Value(Result):
    """One word: what was read, or what was there before a read-modify-write; under a mask its bits, shifted down. After
    its dispatch it is used as an int; before that each use raises `NotDispatched`, and if there is no value each use
    raises the reason."""

    __slots__ = ("_mask",)

    def __init__(self, verb: str, name: str, mask: int = WHOLE) -> None:
        # without a call of the constructor above it: scripts ask for many
        self.verb = verb
        self.name = name
        self._value: Any = None
        self._error: IpbusError | None = QUEUED
        self._mask = mask

    def hear(self, words: Sequence[int]) -> None:
        """Takes the word of its one transaction, which was done."""
        (word,) = words
        self._value = word if self._mask == WHOLE else (word & self._mask) >> shift_of(self._mask)
        self._error = None

    def mask(self) -> int:
        """The bits of the word that were asked for."""
        return self._mask

    def __int__(self) -> int:
        return self.value()

    __index__ = __trunc__ = __floor__ = __ceil__ = __int__

    def __float__(self) -> float:
        return float(self.value())

    def __bool__(self) -> bool:
        return self.value() != 0

    def __hash__(self) -> int:
        return hash(self.value())

    def __str__(self) -> str:
        return str(self.value())

    def __format__(self, form: str) -> str:
        return format(self.value(), form)

    def __round__(self, digits: int | None = None) -> int:
        return round(self.value(), digits)

    def __pow__(self, other: Any, modulus: Any = None) -> Any:
        return pow(self.value(), other) if modulus is None else pow(self.value(), other, modulus)

    def __rpow__(self, other: Any) -> Any:
        return pow(other, self.value())

    def __reduce__(self) -> tuple:
        return int, (self.value(),)

    def __getattr__(self, name: str) -> Any:
        """What else an int has, as `bit_length`."""
        if name.startswith("_"):
            raise AttributeError(name)
        return getattr(self.value(), name)


def _unary(function):
    return lambda self: function(self.value())


def _binary(function):
    return lambda self, other: function(self.value(), other)


def _reflected(function):
    return lambda self, other: function(other, self.value())


for _name in ("neg", "pos", "abs", "invert"):
    setattr(Value, f"__{_name}__", _unary(getattr(operator, f"__{_name}__")))
for _name in ("eq", "ne", "lt", "le", "gt", "ge"):
    setattr(Value, f"__{_name}__", _binary(getattr(operator, f"__{_name}__")))
for _name in ("add", "sub", "mul", "truediv", "floordiv", "mod", "lshift", "rshift", "and", "xor", "or"):
    setattr(Value, f"__{_name}__", _binary(getattr(operator, f"__{_name}__")))
    setattr(Value, f"__r{_name}__", _reflected(getattr(operator, f"__{_name}__")))
Value.__divmod__ = _binary(divmod)
Value.__rdivmod__ = _reflected(divmod)
numbers.Integral.register(Value)


class Block(Result, Sequence):
    """The words of a block. After its dispatch it is used as a list; before that each use raises `NotDispatched`, and
    if there are no words each use raises the reason."""

    __slots__ = ("_left", "_words")
    __hash__ = None

    def __init__(self, verb: str, name: str, transactions: int = 1) -> None:
        super().__init__(verb, name)
        self._left = transactions
        self._words: list[int] = []

    def hear(self, words: Sequence[int]) -> None:
        """Takes the words of the next transaction, which was done."""
        self._words.extend(words)
        self._left -= 1
        if self._left == 0 and self._is_open():
            self.settle(self._words)

    def size(self) -> int:
        """How many words there are."""
        return len(self.value())

    def at(self, place: int) -> int:
        """The word at a place, from 0."""
        return self.value()[place]

    def __len__(self) -> int:
        return len(self.value())

    def __getitem__(self, place):
        return self.value()[place]

    def __iter__(self) -> Iterator[int]:
        return iter(self.value())

    def __eq__(self, other: object) -> bool:
        if not isinstance(other, (list, tuple, Block)):
            return NotImplemented
        return self.value() == list(other)

    def __add__(self, other: Sequence[int]) -> list[int]:
        return self.value() + list(other)

    def __radd__(self, other: Sequence[int]) -> list[int]:
        return list(other) + self.value()

    def __str__(self) -> str:
        return str(self.value())

    def __format__(self, form: str) -> str:
        return format(str(self.value()), form)

    def __reduce__(self) -> tuple:
        return list, (self.value(),)
