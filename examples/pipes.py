#!/usr/bin/env python3
"""Talks to `stinger run` through pipes, as docs/PROGRAM.md says: pipes.py PROGRAM [ARGUMENT..], else ./stinger of this
repository."""
import pathlib
import subprocess
import sys


class Refused(Exception):
    """A record was refused; what it says is the word."""


class Store:
    """A run of the program. A record goes in at once, and its answer is read before the next one goes in."""

    def __init__(self, *command):
        pipe = subprocess.PIPE
        self.run = subprocess.Popen(command, stdin=pipe, stdout=pipe, text=True, encoding="ascii", bufsize=1)
        self.records, self.refusals, self.names = 0, [], {}

    def send(self, *fields):
        """A record whose acceptance prints nothing: `i`, `a` or `r`."""
        self.records += 1
        self.run.stdin.write(",".join(map(str, fields)) + "\n")

    def line(self):
        line = self.run.stdout.readline()
        if not line:
            raise EOFError(f"the run ended before record {self.records} was answered")
        return line.rstrip("\n")

    def ask(self, *fields):
        """The first line that answers this record. Refusals of operations before it are kept in `refusals`."""
        self.send(*fields)
        while (line := self.line()).startswith("error "):
            number, word = line.split()[1:]
            if word in ("Read", "Memory") or int(number) == self.records:
                raise Refused(word)
            self.refusals.append((int(number), word))
        return line

    def open(self, slot):
        """Holds the last version; how many names it has tells how long its answers are."""
        head = self.ask("open", slot)
        self.names[slot] = int(dict(it.split("=") for it in self.ask("stat").split()[1:])["names"])
        return head

    def table(self, *request):
        """The rows of `bfs`, `comp`, `core` or `deg`, read by their count: a vertex may have any name, also `error` or `end`."""
        head = self.ask(*request)
        count = int(head.split("=")[1]) if request[0] == "bfs" else self.names[request[1]]
        return [self.line().split(" ") for _ in range(count)]

    def end(self):
        """What is left to read when no record follows, and the exit status."""
        self.run.stdin.close()
        return self.run.stdout.read().splitlines(), self.run.wait()


def main(*command):
    store = Store(*command)
    for target in ("close", "end", "error"):
        store.send("i", "link", "ann", target, 1, 10)
    store.send("i", "link", "ann", "bob", "much", 10)
    print(store.ask("commit"))
    print("refused:", store.refusals)
    print(store.open(0))
    store.send("i", "link", "error", "zoe", 1, 11)
    print(store.ask("commit"))
    for request in (("deg", 0, "*", 0, 99), ("bfs", 0, "ann", "*", 0, 99), ("comp", 0, "*", 0, 99)):
        print(request[0], store.table(*request))
    try:
        store.table("bfs", 0, "zoe", "*", 0, 99)
    except Refused as refused:
        print("zoe, in the version held:", refused)
    store.send("r", "link", "ann", "end")
    print(*store.end())


if __name__ == "__main__":
    main(*(sys.argv[1:] or [pathlib.Path(__file__).resolve().parent.parent / "stinger", "run"]))
