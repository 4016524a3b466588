"""Many fields of text at once: as places in their bytes, of which numpy reads names and numbers without a text for each.

It is here for its gain: of 500,000 rows of two names and two numbers a survey takes 0.9 us a row so, 3.8 by Python's texts, and
2.7 after `pandas.read_csv` with texts, which alone takes 1.3 (with categories 1.8, and 4.1 with the survey).
"""
from __future__ import annotations

import csv
import io
import re
import sys
from array import array
from typing import TYPE_CHECKING, Any, Iterator, List, Optional, Sequence, Union

from .columns import FieldColumn, NumbersOf, whole

if TYPE_CHECKING:
    from .units import Units

# From how many items on numpy is worth to be loaded, and from how many it is quicker than loops where it is loaded already.
MANY, A_FEW = 50_000, 500
# How many bytes a field may have that is compared in words of eight; by what a word is multiplied before the next one is mixed
# in; and how often texts that fall together are tried once more.
MOST_BYTES, MIX, MOST_TURNS = 64, 0x9E37_79B9_7F4A_7C15, 12
# How a text that isn't in ASCII is bytes here, whatever is in it.
CODEC = ("utf-8", "surrogatepass")
# Eight digits as one word: zeros; what makes a sign past nine have its top bit; and how digits become pairs of them, and so on.
ZEROS, PAST_NINE, TOP_BITS = 0x3030_3030_3030_3030, 0x7676_7676_7676_7676, 0x8080_8080_8080_8080
PAIRS = ((0x0F0F_0F0F_0F0F_0F0F, 10 << 8 | 1, 8), (0x00FF_00FF_00FF_00FF, 100 << 16 | 1, 16),
         (0x0000_FFFF_0000_FFFF, 10_000 << 32 | 1, 32))
_TO_BE_QUOTED = re.compile(r'[",\r\n]')


def numpy_for(count: int, where_loaded: int = A_FEW) -> Any:
    """The package numpy, where it is there and so many items are worth that it is loaded; else `None`. Where it is loaded already
    fewer items are worth that it is used."""
    if count < (min(where_loaded, MANY) if "numpy" in sys.modules else MANY):
        return None
    try:
        import numpy
    except ImportError:
        return None
    return numpy


class Fields(FieldColumn):
    """A column of fields within one text: the texts, once somebody goes through them, and else where each begins and ends. The
    text is one in ASCII, or the bytes of another."""

    def __init__(self, text: Union[str, bytes], data: Any, begins: Any, ends: Any) -> None:
        self._text, self._data, self._begins, self._ends = text, data, begins, ends
        self._texts: Optional[List[str]] = None

    @property
    def texts(self) -> List[str]:
        if self._texts is None:
            self._texts = self._texts_at(slice(None))
        return self._texts

    def _texts_at(self, places: Any) -> List[str]:
        bounds, text = map(slice, self._begins[places].tolist(), self._ends[places].tolist()), self._text
        if isinstance(text, str):
            return list(map(text.__getitem__, bounds))
        return [it.decode(*CODEC) for it in map(text.__getitem__, bounds)]

    def __len__(self) -> int:
        return len(self._begins)

    def some(self, rows: slice) -> "Fields":
        return Fields(self._text, self._data, self._begins[rows], self._ends[rows])

    def weights(self, units: "Units[Any, Any]") -> "Optional[array[int]]":
        return whole(units._weights_of(self))

    def times(self, units: "Units[Any, Any]") -> "Optional[array[int]]":
        return whole(units._times_of(self))

    def numbered(self, numbers_of: NumbersOf, of: object = None) -> "Optional[array[int]]":
        """The number of each field, where those of texts are given; texts that are the same are asked for once."""
        import numpy
        length = self._ends - self._begins
        if length.max() > MOST_BYTES:
            return numbers_of(self.texts)
        firsts = _firsts(numpy, [length.astype("uint64"), *self._words(length)])
        if firsts is None:
            return numbers_of(self.texts)
        new = numpy.flatnonzero(firsts == numpy.arange(len(firsts)))
        found = numbers_of(self._texts_at(new))
        if found is None:
            return None
        numbers = numpy.empty(len(firsts), dtype="uint32")
        numbers[new] = numpy.asarray(found)
        return array("I", numbers[firsts].tobytes())

    def _all_words(self) -> Any:
        """The eight bytes that begin at each place."""
        import numpy
        return numpy.ndarray(len(self._data) - 7, "<u8", self._data, strides=(1,))

    def _words(self, length: Any) -> Iterator[Any]:
        """The bytes of each field, eight at once, with zeros behind its end."""
        import numpy
        words = self._all_words()
        masks = numpy.array([(1 << 8 * it) - 1 for it in range(9)], dtype="uint64")
        for at in range(0, int(length.max()), 8):
            yield words[self._begins + at] & masks[numpy.clip(length - at, 0, 8)]

    def whole_numbers(self, code: str, digits: int) -> "Optional[array[int]]":
        """The numbers that the fields are, where each is a whole one of at most so many signs, a minus sign among them where the
        array's code has one; `None` for others."""
        import numpy
        begins, ends = self._begins, self._ends
        if len(begins) == 0 or (ends - begins).max() > digits:
            return None
        is_less = (self._data[begins] == ord("-")) & code.islower()
        begins = begins + is_less
        if (ends <= begins).any():
            return None
        found, words = numpy.zeros(len(begins), dtype="uint64"), self._all_words()
        for at in range(0, int((ends - begins).max()), 8):  # (the last eight signs of each, then those before)
            first = numpy.maximum(ends - (at + 8), begins)
            part = _eight(numpy, words[numpy.minimum(first, ends)], numpy.clip(ends - at - first, 0, 8))
            if part is None:
                return None
            found += part * numpy.uint64(10 ** at)
        found = found.astype("int64")
        return array(code, numpy.where(is_less, -found, found).tobytes())


def _eight(numpy: Any, words: Any, length: Any) -> Any:
    """The numbers that the first signs of words are, so many of each; `None` where one of these is no digit."""
    # Zeros come before the digits; twice, since no word is moved by all its bits at once.
    half = (32 - 4 * length).astype("uint64")
    zeros = numpy.array([ZEROS >> 8 * it if it < 8 else 0 for it in range(9)], dtype="uint64")
    words = (words << half << half | zeros[length]) ^ numpy.uint64(ZEROS)
    if ((words + numpy.uint64(PAST_NINE) | words) & numpy.uint64(TOP_BITS)).any():
        return None
    for mask, factor, bits in PAIRS:  # (digits become pairs, fours, and the whole)
        words = (words & numpy.uint64(mask)) * numpy.uint64(factor) >> numpy.uint64(bits)
    return words


def _firsts(numpy: Any, keys: List[Any]) -> Any:
    """For each row the first one that has all keys the same. Rows are put into a table by a number that is mixed of the keys;
    those whose place there another key has go into another place in the next turn. `None` where many turns aren't enough, and
    where numpy, which promises no order of such an assignment, doesn't put the first row of a place last."""
    count = len(keys[0])
    mixed, left = numpy.zeros(count, dtype="uint64"), numpy.arange(count)
    for it in keys:
        mixed = (mixed ^ it) * numpy.uint64(MIX)
        mixed ^= mixed >> numpy.uint64(29)
    bits = (2 * count).bit_length()
    table, firsts = numpy.empty(1 << bits, dtype="int64"), numpy.arange(count)
    for _ in range(MOST_TURNS):
        places = (mixed >> numpy.uint64(64 - bits)).astype("int64")
        table[places[::-1]] = left[::-1]
        found = table[places]
        is_same = numpy.logical_and.reduce([it[found] == it[left] for it in keys])
        firsts[left[is_same]] = found[is_same]
        left, mixed = left[~is_same], mixed[~is_same] * numpy.uint64(MIX)
        if not len(left):
            return firsts if (firsts <= numpy.arange(count)).all() else None
        mixed ^= mixed >> numpy.uint64(31)
    return None


def fields_of_csv(texts: Sequence[str]) -> Sequence[str]:
    """Texts as fields of CSV, as Python's `csv` writes them: within quotes where they have to be."""
    if not _TO_BE_QUOTED.search("".join(texts)):
        return texts
    return [_field_of_csv(it) if _TO_BE_QUOTED.search(it) else it for it in texts]


def _field_of_csv(text: str) -> str:
    line = io.StringIO()
    csv.writer(line, lineterminator="\n").writerow((text, ""))
    return line.getvalue()[:-2]


def data_of(numpy: Any, text: Union[str, bytes]) -> Any:
    """The bytes of a text as `Fields` reads them: with room behind the last one."""
    data = text.encode("ascii") if isinstance(text, str) else text
    return numpy.frombuffer(data + bytes(MOST_BYTES + 8), dtype="uint8")


def fields_of(text: str, sign: str) -> Optional[List[Fields]]:
    """The columns of a text's lines, of which each ends in a line feed and has as many fields as the first, two or more; none
    where one has more or less, and where quotes stand amid a field, or around a sign that ends one. `None` where numpy isn't
    there, or isn't worth to be loaded."""
    numpy = numpy_for(len(text), MANY)
    if numpy is None:
        return None
    held: Union[str, bytes] = text if text.isascii() else text.encode(*CODEC)
    data, quotes = data_of(numpy, held), '"' in text
    is_line = data == ord("\n")
    is_end = (data == ord(sign)) | is_line
    if quotes:  # (a sign within quotes comes behind an odd number of them)
        is_within = numpy.cumsum(data == ord('"'), dtype="uint8") & 1 == 1
        if (is_line & is_within).any():
            return []
        is_end &= ~is_within
    ends = numpy.flatnonzero(is_end)
    width = int(is_line[ends].argmax()) + 1
    signs = numpy.frombuffer((sign * (width - 1) + "\n").encode("ascii"), dtype="uint8")
    if width == 1 or len(ends) % width or (data[ends].reshape(-1, width) != signs).any():
        return []
    begins = numpy.concatenate([[0], ends[:-1] + 1])
    if quotes and not _unquote(numpy, data, begins, ends):
        return []
    return [Fields(held, data, *it) for it in zip(begins.reshape(-1, width).T, ends.reshape(-1, width).T)]


def _unquote(numpy: Any, data: Any, begins: Any, ends: Any) -> bool:
    """Takes fields out of the quotes around them, where no other quotes are there, as one doubled, and no field is so long that
    Python's `csv` refuses it."""
    is_quoted = data[begins] == ord('"')
    is_closed = (data[ends - 1] == ord('"')) & (ends - begins >= 2)
    count = numpy.count_nonzero(is_quoted)
    if (is_quoted & ~is_closed).any() or 2 * count != numpy.count_nonzero(data == ord('"')):
        return False
    begins += is_quoted
    ends -= is_quoted
    return bool((ends - begins).max() <= csv.field_size_limit())
