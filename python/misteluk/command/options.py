"""The options of each command of the command line."""
from __future__ import annotations

import argparse
from typing import Any, Optional, get_args

from . import around, file

from ..options import Sync
from ..serve.limits import FORMS, ROOM, USUAL, USUAL_EVERY, ServerLimits, versions_by_memory
from ..serve.people import ROLES
from ..values import records
from ..values.answers import OF_DEGREES
from ..version import VERSION
from ..feeds.feed import Column, Columns
from ..feeds.notations import DECIMALS, TIMES
from ..feeds.spans import seconds_of
from .questions import Question, question


def column(text: str) -> Column:
    """A column: its number from 1, or its name."""
    return int(text) if text.isdigit() else text


def rows(text: str) -> int:
    """How many rows are printed, whose fault argparse tells."""
    if not text.isdecimal():
        raise argparse.ArgumentTypeError(f"a number of rows is 0 or more, and not {text}")
    return int(text)


def asked(text: str) -> Question:
    """A question, whose fault argparse tells."""
    try:
        return question(text)
    except ValueError as fault:
        raise argparse.ArgumentTypeError(str(fault)) from None


BLOCKS = "as many as are needed, and no fewer than 16,384"


QUESTIONS = ("degrees, weights_in, components, cores or edges, with a kind behind them or none; 'levels NAME', 'predecessors "
             "NAME', 'successors NAME', 'neighbors NAME', 'neighborhood NAME HOPS', 'path SOURCE TARGET' or 'edge KIND SOURCE "
             "TARGET'")


def add_feed_options(parser: argparse.ArgumentParser, blocks: str = BLOCKS, saved: str = "", is_needed: bool = True,
                     batch: Optional[int] = records.MOST_OPERATIONS) -> None:
    """Options of a feed; `saved` says what a saved file, or none, in its place is for, where there may be one."""
    count: Any = None if is_needed else "?"
    parser.add_argument("file", nargs=count, help=f"a delimited file, an edge list (SNAP), or a Matrix Market file; .gz is "
                        f"unpacked; - is standard input{saved}")
    way = parser.add_mutually_exclusive_group(required=not saved)
    way.add_argument("--set", dest="by", action="store_const", const="set", help="a later row sets the weight of its edge anew")
    way.add_argument("--add", dest="by", action="store_const", const="add", help="a later row adds to the weight of its edge")
    feed = parser.add_argument_group("what the file is")
    feed.add_argument("--format", choices=("delimited", "snap", "matrix"), help="else the file's name says")
    for name, usual, told in (("source", "source", "source"), ("target", "target", "target"),
                              ("kind", None, "else --default-kind"), ("weight", None, "else weights are 1"),
                              ("time", None, "else times are 0")):
        feed.add_argument(f"--{name}", type=column, default=usual, metavar="COLUMN",
                          help=f"a column's name, or its number from 1 ({told})")
    feed.add_argument("--default-kind", default="link", metavar="KIND", help="the kind of edges whose row has none (link)")
    feed.add_argument("--delimiter", help="else the comma, tab, semicolon or bar of which the first line has most")
    feed.add_argument("--header", action=argparse.BooleanOptionalAction, help="else there is one where columns are named")
    feed.add_argument("--encoding", default="utf-8", help="the file's, as cp1252, latin-1 or utf-16 (utf-8)")
    feed.add_argument("--decimal", choices=DECIMALS, default=".", help="the sign before decimals: . takes 12.50 and "
                      "1,234.50; , takes 12,50 and 1.234,50 (.)")
    feed.add_argument("--dates", choices=TIMES, help="times are dates of this form, which a time of day may follow, or numbers "
                      "since 1970; else --times iso takes 2024-03-05")
    feed.add_argument("--third", choices=("weight", "time"), help="what the third field of an edge list is")
    feed.add_argument("--weight-scale", type=int, metavar="N", help="weights are decimals of so many parts: 100 takes 12.50")
    feed.add_argument("--rounding", choices=("half-even",), help="round weights that have more decimals than --weight-scale "
                      "takes; else such a row is bad")
    feed.add_argument("--times", choices=("number", "iso"), help="iso: times are dates, here and in what is asked and told")
    feed.add_argument("--names", choices=("plain", "escape"), default="plain", help="any text is a name; escape: with %%20 for a "
                      "space and so on, which a script has else as an id")
    feed.add_argument("--skip-bad", action="store_true", help="pass over rows that can't be taken, and count them")
    store = parser.add_argument_group("the store")
    store.add_argument("--blocks", type=int, help=f"else {blocks}")
    store.add_argument("--batch", type=int, default=batch, metavar="N", help="rows a batch (4,096 at most)")


class RejectsFile(argparse.Action):
    """The file for bad rows, which are then passed over."""

    def __call__(self, parser: argparse.ArgumentParser, words: argparse.Namespace, values: Any,
                 option: Optional[str] = None) -> None:
        words.rejects, words.skip_bad = values, True


def add_rejects(group: Any) -> None:
    group.add_argument("--rejects", action=RejectsFile, metavar="FILE", help="pass over rows that can't be taken, and append "
                       "them to this file, each with its line and the reason; mended ones are loaded from it by the same options")


def add_window(parser: argparse.ArgumentParser) -> None:
    parser.add_argument("--of-kind", metavar="KIND", help="answer over edges of one kind; else of any")
    parser.add_argument("--since", default="0", metavar="TIME", help="answer over edges with a recent time from this on, "
                        "each with its whole weight, of which a part may be older")
    parser.add_argument("--until", default=str(records.MOST_TIME), metavar="TIME", help="and up to this; to the end of a day")


def add_table_options(group: Any) -> None:
    group.add_argument("--top", type=rows, default=10, metavar="N", help="how many rows of a table are printed (10)")
    group.add_argument("--by", choices=OF_DEGREES, default="out", dest="column",
                       help="by which column the greatest degrees are (out)")


def add_questions(group: Any) -> None:
    group.add_argument("--ask", action="append", default=[], type=asked, metavar="QUESTION", help=f"print {QUESTIONS}; --ask and "
                       "--levels may be said several times")
    group.add_argument("--levels", action="append", default=[], metavar="NAME", help="print the levels from a source")
    add_table_options(group)


def add_what_then(parser: argparse.ArgumentParser, ask: Any) -> None:
    ask.add_argument("--save", metavar="PATH", help="save the graph as one file, which `misteluk restore` takes; packed where "
                     "its name ends in .gz, .xz or .bz2")
    ask.add_argument("--edges", metavar="PATH", help="write all edges of --of-kind, --since and --until as CSV with a header; "
                     "packed as --save is")
    add_questions(ask)
    ask.add_argument("--interactive", action="store_true", help="then a Python prompt with `store` and `session`")
    add_window(parser)


def add_restore(restore: argparse.ArgumentParser) -> None:
    restore.add_argument("file", help="a file that --save or a session's save wrote, packed or not")
    add_what_then(restore, restore.add_argument_group("what then"))
    store = restore.add_argument_group("the store")
    store.add_argument("--blocks", type=int, help="else as many as the saved store had, or more where the graph needs them")


def add_pace(live: Any) -> None:
    live.add_argument("--every", default="1s", metavar="TIME", help="commit when a row has waited so long, as 500ms, 1s or 5m, "
                      "and when a batch is full (1s)")
    live.add_argument("--keep", metavar="TIME", help="let edges go that weren't touched for so long by the feed's own times: as "
                      "12h or 14d where they are dates, else a whole number")
    live.add_argument("--ahead", metavar="TIME", help="a row whose date is further ahead of the clock than so, as 1h, can't be "
                      "taken (with --keep 1d)")
    add_rejects(live)


def add_follow(follow: argparse.ArgumentParser) -> None:
    add_feed_options(follow, blocks=f"{records.MOST_BLOCKS:,}")
    live = follow.add_argument_group("what goes in and out, and when")
    add_pace(live)
    live.add_argument("--until-end", action="store_true", help="end at the file's end, and don't wait for what it grows by")
    told = follow.add_argument_group("what is told behind each commit")
    told.add_argument("--ask", action="append", default=[], type=asked, metavar="QUESTION", help=QUESTIONS)
    told.add_argument("--within", metavar="TIME", help="answer over edges that were touched within so long of the newest time")
    told.add_argument("--json", action="store_true", help="tell each commit and each answer as a line of JSON")
    add_table_options(told)


def add_serve(parser: argparse.ArgumentParser) -> None:
    parser.add_argument("path", nargs="?", metavar="STORE", help="a store's file, which is made or gone on with; without one the "
                        "store is in memory alone (where --set or --add is said, the last file that is named is the feed)")
    add_feed_options(parser, blocks=f"{ROOM:,}, and more once they are needed",
                     saved="; without one a client posts the rows", is_needed=False)
    live = parser.add_argument_group("what goes in and out, and when")
    add_pace(live)
    add_server_options(parser)


def add_server_options(parser: argparse.ArgumentParser) -> None:
    usual = ServerLimits()
    listen = parser.add_argument_group("where, and for whom")
    listen.add_argument("--listen", default=USUAL, metavar="ADDRESS", help=f"HOST:PORT, or unix:PATH for a socket that its owner "
                        f"alone may use ({USUAL})")
    listen.add_argument("--token-file", metavar="PATH", help="a file of lines NAME ROLE TOKEN: each request must bear one of the "
                        f"tokens, whose role ({', '.join(ROLES[1:])}) says what it may ask. SIGHUP has it read anew. A file of "
                        "one word has a token for everyone; else MISTELUK_TOKEN has. An address that other machines reach wants "
                        "one")
    listen.add_argument("--log", choices=FORMS, help="log each request that is refused, each post and each hold on standard "
                        "error, as text or JSON; else faults alone are logged")
    listen.add_argument("--sync", choices=get_args(Sync), help="of a store's file: have each batch on the disk before it is "
                        "answered (full); normal: a loss of power may cost the last ones; off: it may damage the file")
    listen.add_argument("--history", type=file.history, metavar="N|TIME", help="of a store's file: keep the last N versions at "
                        "least, or those of so long ago, as 30d; else all are kept")
    listen.add_argument("--replica-of", metavar="FILE|URL", help="serve what a store's file has that another process writes, or "
                        "what another server has, as it comes; for reading alone")
    listen.add_argument("--save", metavar="FILE", help="begin with the version that this file has, if it is there, and save the "
                        "last one in it at intervals and at the end. (A file that is followed is read again, and needs none.)")
    listen.add_argument("--save-every", type=float, default=USUAL_EVERY, metavar="SECONDS", help="how often it is saved, where "
                        f"there is another version ({USUAL_EVERY:g})")
    listen.add_argument("--idle", type=float, default=usual.idle, metavar="SECONDS", help="let a client's version go when it was "
                        f"silent for so long ({usual.idle:g})")
    listen.add_argument("--versions", type=int, metavar="N", help="how many versions clients may hold, besides the newest; each "
                        f"takes memory for what came later (one for each 64 MB of memory: {versions_by_memory()} here)")
    listen.add_argument("--publish", type=seconds_of, default=0.0, metavar="TIME", help="have what was fed become the newest "
                        "version at such intervals, as 5s, so that those who come meanwhile share one; else each batch does")
    listen.add_argument("--clients", type=int, default=usual.clients, metavar="N", help=f"how many sessions there may be "
                        f"({usual.clients:,})")
    listen.add_argument("--body", type=int, default=usual.body, metavar="BYTES", help=f"how long a request's body may be "
                        f"({usual.body:,})")
    listen.add_argument("--longest", type=float, default=usual.time, metavar="SECONDS", help="how long an answer may take "
                        f"({usual.time:g})")
    listen.add_argument("--each", type=int, default=usual.each, metavar="N", help="how many questions one person may have under "
                        f"way, where there are several tokens ({usual.each})")
    listen.add_argument("--questions", type=int, default=usual.questions, metavar="N", help="how many questions over the whole "
                        f"graph are answered at once ({usual.questions})")


def add_at(at: argparse.ArgumentParser) -> None:
    at.add_argument("file", help="a store's file")
    which = at.add_mutually_exclusive_group(required=True)
    which.add_argument("--version", type=int, metavar="N", help="the version that is asked")
    which.add_argument("--time", metavar="TIME", help="the last version that was written by this date, as 2024-05-01 or "
                       "2024-05-01T12:00:00+02:00")
    add_what_then(at, at.add_argument_group("what then"))


def add_view(page: argparse.ArgumentParser) -> None:
    add_feed_options(page, saved="; or one that --save wrote, without --set or --add")
    page.add_argument("-o", "--output", required=True, metavar="PAGE", help="a name that ends in .html")
    page.add_argument("--title", help="what stands above the page (else what it shows)")
    around.add_options(page)
    add_window(page)


def make_parser() -> argparse.ArgumentParser:
    parser = argparse.ArgumentParser(prog="misteluk", description="Loads data into Misteluk, and asks.",
                                     epilog="Status: 0, 1 after a fault, 2 for wrong arguments, 130 after Ctrl-C, and 141 where "
                                     "the output lost its reader, as by `| head` (of follow 0).")
    parser.add_argument("-V", "--version", action="version", version=f"misteluk {VERSION}")
    commands = parser.add_subparsers(dest="command", required=True)
    load = commands.add_parser("load", help="load a file, and ask; nothing is kept unless it is saved")
    add_feed_options(load, batch=None)
    ask = load.add_argument_group("what then")
    add_rejects(ask)
    ask.add_argument("--dry-run", action="store_true", help="count and check the file, and send nothing")
    ask.add_argument("--script", metavar="OUT", help="write the records as a script for `stinger run`, and send nothing")
    add_what_then(load, ask)
    add_restore(commands.add_parser("restore", help="make a store of a saved file, and ask"))
    add_follow(commands.add_parser("follow", help="load a file that grows, or standard input, as it comes; Ctrl-C ends it"))
    add_serve(commands.add_parser("serve", help="serve a live graph over HTTP: one feed, and many who ask; Ctrl-C ends it"))
    add_at(commands.add_parser("at", help="ask a store's file as of a version or a time; it may be written meanwhile"))
    file.add_commands(commands)
    commands.add_parser("doctor", help="tell which library is loaded, where it is, whether it was proved, and its limits")
    add_view(commands.add_parser("view", help="make a page of a vertex's neighborhood in a file's graph"))
    return parser


def columns_of(words: argparse.Namespace) -> Columns:
    return Columns(words.source, words.target, words.kind, words.weight, words.time, words.default_kind)
