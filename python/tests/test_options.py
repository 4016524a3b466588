"""What each command takes: each option, what it is where nothing is said, and what is refused; and a server's limits."""
import io
import unittest
from contextlib import redirect_stderr
from datetime import timedelta

from support import Case

from misteluk.command.options import columns_of, make_parser
from misteluk.feeds.feed import Columns
from misteluk.serve.limits import ServerLimits

NEVER = "9223372036854775807"
# What each command has where nothing is said but what it wants.
FEED = {"by": "add", "format": None, "source": "source", "target": "target", "kind": None, "weight": None, "time": None,
        "default_kind": "link", "delimiter": None, "header": None, "encoding": "utf-8", "decimal": ".", "dates": None,
        "third": None, "weight_scale": None, "rounding": None, "times": None, "names": "plain", "skip_bad": False, "blocks": None,
        "batch": 4_096}
PACE = {"every": "1s", "keep": None, "ahead": None, "rejects": None}
WINDOW = {"of_kind": None, "since": "0", "until": NEVER}
TABLES = {"top": 10, "column": "out"}
THEN = {"save": None, "edges": None, "ask": [], "levels": [], "interactive": False, **TABLES, **WINDOW}
USUAL = {
    "load f --add": {**FEED, **THEN, "file": "f", "batch": None, "rejects": None, "dry_run": False, "script": None},
    "restore f": {**THEN, "file": "f", "blocks": None},
    "follow f --add": {**FEED, **PACE, **TABLES, "file": "f", "until_end": False, "ask": [], "within": None, "json": False},
    "serve": {**FEED, **PACE, "file": None, "by": None, "listen": "127.0.0.1:7700", "token_file": None, "log": None, "save": None,
              "save_every": 60.0, "idle": 60.0, "versions": None, "publish": 0.0, "clients": 1_000, "body": 8_388_608,
              "longest": 60.0, "each": 100, "questions": 4, "path": None, "sync": None, "history": None, "replica_of": None},
    "at f --version 3": {**THEN, "file": "f", "version": 3, "time": None},
    "log f": {"file": "f", "since": None},
    "check f": {"file": "f"},
    "compact f": {"file": "f", "history": None},
    "view f -o p --around a": {**FEED, **WINDOW, "file": "f", "by": None, "output": "p", "title": None, "around": "a", "hops": 2,
                               "most": 150, "at": None, "at_line": None},
    "doctor": {},
}
# What options of a command make of their values.
OF_FEED = (("--set", "by", "set"), ("--add", "by", "add"), ("--format snap", "format", "snap"),
           ("--format matrix", "format", "matrix"), ("--format delimited", "format", "delimited"),
           ("--source 3", "source", 3), ("--source x", "source", "x"), ("--target 3", "target", 3),
           ("--kind 3", "kind", 3), ("--weight w", "weight", "w"),
           ("--time t", "time", "t"), ("--default-kind k", "default_kind", "k"), ("--delimiter ;", "delimiter", ";"),
           ("--header", "header", True), ("--no-header", "header", False), ("--encoding cp1252", "encoding", "cp1252"),
           ("--decimal ,", "decimal", ","), ("--third weight", "third", "weight"), ("--third time", "third", "time"),
           ("--weight-scale 100", "weight_scale", 100), ("--rounding half-even", "rounding", "half-even"),
           ("--times iso", "times", "iso"), ("--times number", "times", "number"),
           ("--names escape", "names", "escape"), ("--skip-bad", "skip_bad", True), ("--blocks 64", "blocks", 64),
           ("--batch 9", "batch", 9))
OF_PACE = (("--every 5m", "every", "5m"), ("--keep 14d", "keep", "14d"), ("--ahead 1h", "ahead", "1h"),
           ("--rejects r", "rejects", "r"), ("--rejects r", "skip_bad", True))
OF_WINDOW = (("--of-kind k", "of_kind", "k"), ("--since 3", "since", "3"), ("--until 3", "until", "3"))
OF_TABLES = (("--top 3", "top", 3), ("--top 0", "top", 0), ("--by weight_out", "column", "weight_out"))
OF_THEN = (("--save s", "save", "s"), ("--edges e", "edges", "e"), ("--levels a --levels b", "levels", ["a", "b"]),
           ("--interactive", "interactive", True), *OF_TABLES, *OF_WINDOW)
GIVEN = {
    "load f": (*OF_FEED, *OF_THEN, ("--rejects r", "rejects", "r"), ("--rejects r", "skip_bad", True),
               ("--dry-run", "dry_run", True), ("--script s", "script", "s")),
    "restore f": (*OF_THEN, ("--blocks 64", "blocks", 64)),
    "follow f": (*OF_FEED, *OF_PACE, *OF_TABLES, ("--until-end", "until_end", True), ("--within 1h", "within", "1h"),
                 ("--json", "json", True)),
    "serve": (*OF_FEED, *OF_PACE, ("--listen h:1", "listen", "h:1"), ("--token-file t", "token_file", "t"),
              ("--log json", "log", "json"), ("--log text", "log", "text"), ("--save s", "save", "s"),
              ("--save-every 1.5", "save_every", 1.5), ("--idle 1.5", "idle", 1.5), ("--versions 7", "versions", 7),
              ("--publish 1500ms", "publish", 1.5), ("--publish 2", "publish", 2.0),
              ("--clients 7", "clients", 7), ("--body 7", "body", 7), ("--longest 1.5", "longest", 1.5), ("--each 7", "each", 7),
              ("--questions 7", "questions", 7), ("--sync normal", "sync", "normal"), ("--history 3", "history", 3),
              ("--replica-of r", "replica_of", "r"), ("g.db", "path", "g.db")),
    "at f": (("--version 3", "version", 3), ("--time 2024-05-01", "time", "2024-05-01")),
    "at f --version 3": OF_THEN,
    "log f": (("--since 3", "since", 3),),
    "compact f": (("--history 3", "history", 3), ("--history 30d", "history", timedelta(days=30)),
                  ("--history 0", "history", 0)),
    "view f -o p --around a": (*OF_FEED, *OF_WINDOW, ("--title t", "title", "t"), ("--hops 3", "hops", 3),
                               ("--most 7", "most", 7), ("--at 3", "at", "3"), ("--at-line 3", "at_line", 3)),
    "view f --around a": (("-o q", "output", "q"), ("--output q", "output", "q")),
}
# What is refused, and what is told of it.
WRONG = {"": "the following arguments are required: command", "lode f": "invalid choice: 'lode'",
         "load f": "one of the arguments --set --add is required",
         "load --add": "the following arguments are required: file", "load f --add --set": "not allowed with argument",
         "load f --add --format csv": "argument --format: invalid choice: 'csv'",
         "load f --add --decimal ;": "argument --decimal: invalid choice",
         "load f --add --dates x": "argument --dates: invalid choice",
         "load f --add --third x": "argument --third: invalid choice",
         "load f --add --rounding up": "argument --rounding: invalid choice",
         "load f --add --times x": "argument --times: invalid choice",
         "load f --add --names x": "argument --names: invalid choice",
         "load f --add --by kind": "argument --by: invalid choice",
         "load f --add --batch x": "argument --batch: invalid int value",
         "follow f": "one of the arguments --set --add is required",
         "follow --add": "the following arguments are required: file",
         "serve f --log csv": "argument --log: invalid choice", "at f": "one of the arguments --version --time is required",
         "at f --version 1 --time 3": "not allowed with argument", "log": "the following arguments are required: file",
         "log f --since x": "argument --since: invalid int value",
         "compact f --history x": "argument --history: a length of time",
         "view f --around a": "the following arguments are required: -o/--output",
         "view f -o p": "the following arguments are required: --around",
         "view f -o p --around a --at 3 --at-line 3": "not allowed with argument"}


PARSER = make_parser()


class Options(Case):
    def parsed(self, words):
        return vars(PARSER.parse_args(words.split()))

    def test_where_nothing_is_said(self):
        for words, wanted in USUAL.items():
            self.assertEqual(self.parsed(words), {"command": words.split()[0], **wanted})

    def test_what_is_said(self):
        for words, rows in GIVEN.items():
            for more, name, value in rows:
                way = "--add " * (words in ("load f", "follow f") and name != "by")
                self.assertEqual(self.parsed(f"{words} {way}{more}")[name], value, (words, more))

    def test_columns(self):
        words = "load f --add --source a --target 2 --kind b --weight 3 --time c --default-kind d"
        self.assertEqual(columns_of(PARSER.parse_args(words.split())), Columns("a", 2, "b", 3, "c", "d"))

    def test_what_is_refused(self):
        for words, told in WRONG.items():
            with self.assertRaises(SystemExit) as caught, redirect_stderr(io.StringIO()) as err:
                self.parsed(words)
            self.assertEqual(caught.exception.code, 2, words)
            self.assertIn(told, err.getvalue(), words)


class Limits(Case):
    def test_limits(self):
        """The least and the greatest of each, which are taken, and what is next to them, which isn't."""
        for name, least, most, step in (("clients", 1, 100_000, 1), ("body", 1_024, 1 << 30, 1), ("questions", 1, 64, 1),
                                        ("versions", 1, 100_000, 1), ("each", 1, 100_000, 1), ("idle", 1e-9, 1e6, 1e-9),
                                        ("time", 1e-9, 1e6, 1e-9), ("publish", 0.0, 1e6, 1e-9)):
            for value in (least, most):
                self.assertEqual(getattr(ServerLimits(**{name: value}).checked(), name), value)
            for value in (least - step, most + max(step, 1e-3), float("nan")):
                self.assertRaisesRegex((ValueError, TypeError), name, ServerLimits(**{name: value}).checked)

    def test_usual_ones(self):
        self.assertEqual(ServerLimits().checked(), (60.0, 1_000, 8_388_608, 60.0, 4, 64, 100, 0.0))


if __name__ == "__main__":
    unittest.main()
