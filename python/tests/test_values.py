"""A value is an int in every respect once it is answered, and nothing before."""

import copy
import json
import numbers
import operator
import pickle
import struct
import unittest

import support  # noqa: F401  the package is on the path by it
from ipbus import Block, NotDispatched, Value, Written
from ipbus.errors import BusError

WORD = 0x30001


def answered(word: int = WORD) -> Value:
    value = Value("read", "b0:id")
    value.settle(word)
    return value


class Values(unittest.TestCase):
    def test_compares_as_an_int(self):
        value = answered()
        self.assertTrue(value == WORD and WORD == value and value == answered() and not value != WORD)
        self.assertTrue(value > 3 and 3 < value and value >= WORD and value <= answered() and not value < 3)
        self.assertFalse(value == "0x30001")
        self.assertEqual(sorted([answered(5), 3, answered(4)]), [3, 4, 5])
        self.assertEqual({value: "here"}[WORD], "here")
        self.assertIn(value, {WORD})

    def test_computes_as_an_int(self):
        names = "add sub mul truediv floordiv mod lshift rshift and_ xor or_ pow"
        for name in names.split():
            compute = getattr(operator, name)
            with self.subTest(name):
                self.assertEqual(compute(answered(13), 3), compute(13, 3))
                self.assertEqual(compute(200, answered(3)), compute(200, 3))
                self.assertEqual(compute(answered(13), answered(3)), compute(13, 3))
        self.assertEqual(answered(13) + 0.5, 13.5)
        self.assertEqual((divmod(answered(13), 4), divmod(13, answered(4))), ((3, 1), (3, 1)))
        self.assertEqual(pow(answered(3), 4, 5), 1)
        self.assertEqual((-answered(), ~answered(), +answered(), abs(answered())), (-WORD, ~WORD, WORD, WORD))

    def test_is_shown_as_an_int(self):
        value = answered()
        self.assertEqual(f"{value} {value:#x} {value:08b} {[value]}", f"{WORD} {WORD:#x} {WORD:08b} [{WORD}]")
        self.assertEqual((str(value), repr(value), hex(value)), (str(WORD), str(WORD), "0x30001"))
        self.assertEqual("%d" % value, str(WORD))

    def test_is_taken_as_an_int(self):
        value = answered(2)
        self.assertEqual((int(value), float(value), bool(value), bool(answered(0))), (2, 2.0, True, False))
        self.assertEqual(([10, 11, 12][value], list(range(value)), struct.pack(">I", value)), (12, [0, 1], b"\0\0\0\2"))
        self.assertEqual((round(value), value.bit_length(), value.to_bytes(2, "big"), value.real), (2, 2, b"\0\2", 2))
        self.assertEqual((pickle.loads(pickle.dumps(value)), copy.copy(value), json.dumps(int(value))), (2, 2, "2"))
        self.assertIsInstance(value, numbers.Integral)
        self.assertEqual((value.value(), value.valid(), value.mask()), (2, True, 0xFFFFFFFF))
        with self.assertRaises(AttributeError):
            value.nothing

    def test_is_nothing_before_its_dispatch(self):
        value = Value("read", "b0:id")
        uses = (
            int, bool, hash, str, float, value.value, lambda v: v == 1, lambda v: v & 1, lambda v: 1 + v,
            lambda v: v > 1, lambda v: f"{v}", lambda v: [0][v], lambda v: v.bit_length(),
        )  # fmt: skip
        for use in uses:
            with self.assertRaises(NotDispatched) as caught:
                use() if use == value.value else use(value)
            self.assertIn("dispatch()", str(caught.exception))
        self.assertFalse(value.valid())
        self.assertEqual(repr(value), "<read b0:id: NotDispatched>")

    def test_raises_its_error_in_each_use(self):
        value = Value("read", "b0:id")
        value.settle(None, BusError.of(4, 0).about("read b0:id"))
        with self.assertRaises(BusError) as caught:
            value + 1
        self.assertEqual((caught.exception.code, caught.exception.done), (4, 0))
        self.assertEqual(repr(value), "<read b0:id: BusError>")


class Blocks(unittest.TestCase):
    def test_is_a_list(self):
        block = Block("readblock", "b0:mem")
        for use in (len, list, str, lambda b: b[0], lambda b: b == [1], lambda b: b + [1], lambda b: f"{b}"):
            with self.assertRaises(NotDispatched):
                use(block)
        block.settle([1, 2, 3])
        self.assertTrue(block == [1, 2, 3] and block == (1, 2, 3) and [1, 2, 3] == block and block != [1])
        self.assertEqual((len(block), block[1], block[-1], block[1:], list(block)), (3, 2, 3, [2, 3], [1, 2, 3]))
        self.assertEqual((block + [4], [0] + block), ([1, 2, 3, 4], [0, 1, 2, 3]))
        self.assertEqual((f"{block}", str(block), repr(block)), ("[1, 2, 3]",) * 3)
        self.assertEqual((block.size(), block.at(2), block.index(2), 3 in block), (3, 3, 1, True))

    def test_a_write_is_done_or_not(self):
        written = Written("write", "b0:a")
        self.assertFalse(written.valid())
        with self.assertRaises(NotDispatched):
            written.value()
        written.settle(None)
        self.assertTrue(written.valid())
        self.assertIsNone(written.value())
        self.assertEqual(repr(written), "<write b0:a: done>")


if __name__ == "__main__":
    unittest.main()
