"""What a store's user says and is told, and what the program has for it: names by a table, weights and times by units."""
from __future__ import annotations

from typing import Any, Callable, Collection, List, Optional, Sequence, Set, Tuple

from .advice import advice_for
from .feed import Block
from ..engine.operations import Row, fields_of, row_of
from ..engine.protocol import Denied
from ..errors import Refused, refusal
from ..values import records
from ..values.names import MARK, NameTable, text_reason
from ..values.records import Fault
from ..values.units import PLAIN, Units

# What a user says for fields of requests.
_SAID = {"lo": "since", "hi": "until"}
# How many names are known to be right at most.
MOST_KNOWN = 1 << 18


class Terms:
    """A table of names and units, and what records say in them. A record's fields are the user's texts on one side, and the
    program's on the other."""

    def __init__(self, names: Optional[NameTable] = None, units: Units[Any, Any] = PLAIN,
                 right: Optional[Set[str]] = None) -> None:
        self.names = NameTable() if names is None else names
        self.units = units
        # Names, and kinds, that are the engine's as they stand, as far as they were looked at.
        self.right: Set[str] = set() if right is None else right

    @staticmethod
    def has_no_id(text: str) -> bool:
        """Whether no name in a record has an id's form, or is one's id."""
        return MARK not in text

    def turned(self, fields: Sequence[str], keep: bool = True) -> Tuple[List[str], List[Fault]]:
        """The program's fields, and what is wrong with those that have none, which are empty then. With `keep=False` no name is
        kept: a question tells of none."""
        found, faults = [fields[0]], []
        formats = records.FORMATS.get(fields[0], ())
        if len(formats) != len(fields) - 1:
            return list(fields), []
        for field, value in zip(formats, fields[1:]):
            try:
                found.append(self._field(field, value, keep))
            except ValueError as fault:
                found.append("")
                faults.append(Fault(records.RULES[field][0], field, value, str(fault)))
        return found, faults

    def _field(self, field: str, value: str, keep: bool) -> str:
        if field in records.NAME_FIELDS:
            return self.names.to_program(value, keep=keep)
        if field in records.WEIGHT_FIELDS:
            return self.units._weight_to_program(value)
        return self.units._time_to_program(value, is_end=field == "hi") if field in records.TIME_FIELDS else value

    def faults_of(self, fields: Sequence[str], seats: int = records.MOST_SEATS) -> List[Fault]:
        """The rules that the record breaks, in the program's order, told in the user's texts."""
        found, faults = self.turned(fields, keep=False)
        empty = {it.field for it in faults}
        faults += [it for it in records.faults_of(found, seats) if it.field is None or it.field not in empty]
        return sorted(faults, key=lambda it: records.ORDER.index(it.word))

    def refusal(self, fault: Fault, **where: "object") -> Refused:
        """The exception for a fault, with what helps where such a value stands there."""
        fault = fault._replace(field=_SAID.get(fault.field or "", fault.field))
        return refusal(fault.word, fault=fault, advice=advice_for(fault, self.units), **where)  # type: ignore[arg-type]

    @staticmethod
    def denied(fault: Denied, asked: str) -> Refused:
        """The exception for what an engine denied where this was asked."""
        return refusal(fault.word, asked)

    def row(self, fields: Sequence[str]) -> Row:
        """The engine's operation for the fields of a record. Raises a `Refused` where a rule is broken."""
        faults = self.faults_of(fields)
        if faults:
            raise self.refusal(faults[0])
        return row_of(self.turned(fields)[0])

    def told(self, row: Row) -> str:
        """The user's record of an operation that the engine has, without the end of its line."""
        command, *values = fields_of(row)
        fields = zip(records.FORMATS[command], values)
        return records.record([command, *(self._told_field(field, value) for field, value in fields)]).rstrip("\n")

    def _told_field(self, field: str, value: str) -> str:
        if field in records.NAME_FIELDS:
            return self.names.to_user(value)
        turn: Optional[Callable[[int], object]] = (
            self.units._weight_to_user if field in records.WEIGHT_FIELDS else
            self.units._time_to_user if field in records.TIME_FIELDS else None)
        return value if turn is None else str(turn(int(value)))

    # Many at once.

    def names_of(self, texts: Sequence[str], is_kind: bool = False) -> Sequence[str]:
        """The engine's names for many texts, or kinds; nothing, "", for what is none."""
        new = set(texts).difference(self.right)
        if new and not self.are_as_they_are(new):
            told = {it: self._name_of(it, is_kind) for it in new}
            return [told.get(it, it) for it in texts]
        return texts

    def are_as_they_are(self, new: Collection[str]) -> bool:
        """Whether texts are the engine's names, or kinds, as they stand. Such names are known from then on."""
        if not records.are_names(new) or records.ANY in new or not self.has_no_id("".join(new)):
            return False
        if len(self.right) + len(new) > MOST_KNOWN:
            self.right.clear()
        self.right.update(new)
        return True

    def knows(self, names: Collection[str]) -> bool:
        """Whether names, or kinds, are the engine's as they stand, whoever asks first."""
        return self.right.issuperset(names) or all(isinstance(it, str) for it in names) and self.are_as_they_are(names)

    def asked(self, name: str) -> str:
        """What stands for a name that a question has: an id that no name has, where it is none that was told."""
        return name if name in self.right else self.names.to_program(name, keep=False)

    def _name_of(self, text: str, is_kind: bool) -> str:
        if is_kind and text == records.ANY or text_reason(text):
            return ""
        return self.names.to_program(text)

    def written(self, block: Block) -> Block:
        """The rows of a feed in the engine's terms, weights and times as numbers; and for what is none, nothing, or `None`."""
        return Block(block.lines, self.names_of(block.kinds, is_kind=True), self.names_of(block.sources),
                     self.names_of(block.targets), self.units._weights_of(block.weights), self.units._times_of(block.times))
