"""`stinger run` as another voice: a store that is told operations and asked through pipes, record by record.

It has its own names for texts, and numbers its records itself: nothing of the client is in it but `find_program`. What the
program has no record for, as all edges of a version, is worked out here by plain loops from what it answers.
"""
import subprocess
from collections import Counter

from support import find_program

ANY, LAST, AT_ONCE = "*", (1 << 63) - 1, 400


class Refused(Exception):
    """The program refused a record; the word that it gave."""


class Run:
    """A run of the program."""

    def __init__(self, blocks=4096, seats=16):
        words = [find_program(), "run", "--blocks", str(blocks), "--seats", str(seats)]
        self.process = subprocess.Popen(words, stdin=subprocess.PIPE, stdout=subprocess.PIPE, stderr=subprocess.DEVNULL,
                                        text=True)
        self.names, self.texts, self.edges, self.seats = {}, {}, {}, list(range(seats))

    def name(self, text):
        """The program's name for a text, and the text for a name."""
        name = self.names.setdefault(text, f"n{len(self.names)}")
        self.texts[name] = text
        return name

    def ask(self, *fields, rows=lambda _: 0):
        """The numbers of an answer's first line by name, the line's other words, and its rows."""
        self.write([fields])
        return self.read(rows)

    def write(self, records):
        self.process.stdin.write("".join(",".join(map(str, it)) + "\n" for it in records))
        self.process.stdin.flush()

    def read(self, rows=lambda _: 0):
        words = self.line()
        if words[0] == "error":
            raise Refused(words[2])
        told = {name: int(number) for name, _, number in (it.partition("=") for it in words) if number}
        return told, words[1:], [self.line() for _ in range(rows(told))]

    def line(self):
        line = self.process.stdout.readline()
        assert line, "the program has ended"
        return line.rstrip("\n").split(" ")

    def commit(self, operations):
        """Applies a batch of (command, kind, source, target, weight, time), (r, kind, source, target) and (x, time); gives its
        counts: inserted, updated, removed, absent, overflowed and expired."""
        self.write((it[0], *it[1:]) if it[0] == "x" else (it[0], *map(self.name, it[1:4]), *it[4:]) for it in operations)
        told, _, _ = self.ask("commit")
        self.edges.update(dict.fromkeys(it[1:4] for it in operations if it[0] in "ia"))
        self.ask("collect")
        return tuple(told.get(it, 0) for it in ("ins", "upd", "rem", "abs", "ovf", "exp"))

    def stat(self):
        told, _, _ = self.ask("stat")
        return told["v"], told["names"], told["edges"]

    def open(self):
        return Voice(self, self.seats.pop(0))

    def rebase(self, voice):
        self.ask("rebase", voice.slot)
        self.seats = list(range(16))

    def end(self):
        """Ends the input; gives what the program still says, and its status."""
        self.process.stdin.close()
        with self.process:
            return self.process.stdout.read(), self.process.wait()


class Voice:
    """A session of a run, and what its version answers. A window is a kind, or `None`, and the times since and until."""

    def __init__(self, run, slot):
        self.run, self.slot = run, slot
        told = run.ask("open", slot)[0]
        self.version, self.count, self.asked = told["v"], run.stat()[1], list(run.edges)

    def close(self):
        self.run.ask("close", self.slot)
        self.run.seats.append(self.slot)

    def table(self, command, *given, rows=None):
        found = self.run.ask(command, self.slot, *given, rows=rows or (lambda _: self.count))[2]
        return {self.run.texts[name]: values for name, *values in found}

    def window(self, kind=None, since=0, until=LAST):
        return ANY if kind is None else self.run.name(kind), since, until

    def levels(self, source, *window):
        found = self.table("bfs", self.run.name(source), *self.window(*window), rows=lambda told: told["reached"])
        return {name: int(level) for name, (level,) in found.items()}

    def components(self, *window):
        return {name: self.run.texts[label] for name, (label,) in self.table("comp", *self.window(*window)).items()}

    def cores(self, *window):
        return {name: int(core) for name, (core,) in self.table("core", *self.window(*window)).items()}

    def degrees(self, *window):
        return {name: tuple(map(int, values)) for name, values in self.table("deg", *self.window(*window)).items()}

    def edge(self, *ends):
        """One edge's weight and times, or `None`."""
        words = self.run.ask("edge", self.slot, *map(self.run.name, ends))[1]
        return None if words[1] == "none" else tuple(map(int, words[1:]))

    def edges(self, kind=None, since=0, until=LAST):
        """All edges, by asking for each that the run was ever told of: as many as the program itself counts."""
        self.degrees(kind)  # (refused for a kind that there isn't)
        found = {}
        for at in range(0, len(self.asked), AT_ONCE):
            part = self.asked[at:at + AT_ONCE]
            self.run.write(("edge", self.slot, *map(self.run.name, it)) for it in part)
            for ends in part:
                try:
                    words = self.run.read()[1]
                except Refused:
                    continue
                if words[1] != "none":
                    found[ends] = tuple(map(int, words[1:]))
        degrees, out, into = self.degrees(), Counter(it[1] for it in found), Counter(it[2] for it in found)
        assert {it: (out[it], into[it]) for it in degrees} == {it: told[:2] for it, told in degrees.items()}
        return {it: marks for it, marks in found.items() if kind in (None, it[0]) and since <= marks[2] <= until}
