"""What `help(misteluk)` shows: the names that there are, their options, and what stands where another thing belongs."""
import dataclasses
import inspect
import pydoc
import re
import unittest

from support import IS_REPOSITORY, NO_REPOSITORY, TOP, Case

import misteluk
from misteluk import errors
from misteluk.feeds.opening import ReadAs
from misteluk.options import ReadOptions

# The names of the package, and of the calls of stores and sessions, before those of a first release.
WERE_PUBLIC = """Store Session Part Limits connect connect_async Served AwaitedSession load survey load_in_steps Loaded Survey
    follow Following Followed Rejected Columns ReadAs Feed open_feed delimited snap matrix_market from_networkx from_pandas
    from_columns from_rows Answer Components Edges Diff Changed Collected Commit Degree Edge Neighbor Rebased Renewed Saved
    Stat view View find_library find_program StoreError Refused Place AlreadyOpen BadCommand BadFields BadName BadRows
    BadSlot BadTime BadWeight BadWindow BatchFull BatchLimit Busy FeedFault JournalError JournalFault KindsFull LeftOut
    LibraryNotFound Locked Misread Missing NamesFull NoAnswer NoKind NoMemory NoSeat NoServer NoVertex NotAllowed NotOpen
    NotWritten OverLimit PoolEmpty ProgramNotFound ReadOnly SaveFault SequenceTaken SessionClosed TooLarge Uncommitted""".split()
HAD_CALLS = """is_open must_be_open levels components cores degrees weights_in edge edges edges_columns edges_frame to_networkx
    to_igraph to_scipy to_csv diff edges_out_of edges_into out_of into neighbors path within save close insert add remove
    expire blocks pending kinds units discard commit load follow restore at stat collect open rebase renew file renewals
    operations_kept is_closed kill""".split()


class Help(Case):
    def test_what_there_is(self):
        """Names of this package alone, each told of; every error that there is among them."""
        for name in misteluk.__all__:
            it = getattr(misteluk, name)
            self.assertTrue(it.__module__.startswith("misteluk."), name)
            self.assertTrue(inspect.getdoc(it) or issubclass(it, errors.Refused), name)
        known = {name for name, it in vars(errors).items() if inspect.isclass(it) and it.__module__ == errors.__name__
                 and issubclass(it, Exception)}
        self.assertEqual(known & set(misteluk.__all__), {"BadRows", "JournalError", "NoVertex", "Refused", "SessionClosed",
                                                         "StoreError"})
        told = pydoc.plain(pydoc.render_doc(misteluk))
        for wrong in ("TYPE_CHECKING", "NamedTuple(", "class Dict", "Optional ="):
            self.assertNotIn(f"\n    {wrong}", told)
        self.assertEqual(sorted(set(misteluk.__all__)), sorted(misteluk.__all__))
        self.assertEqual([it for it in dir(misteluk) if it[0] != "_"], sorted([*misteluk.__all__, "errors"]))

    def test_where_a_task_begins(self):
        """What the help of the package names is there."""
        calls = re.findall(r"`(\w+)\.(\w+)`", misteluk.__doc__ or "")
        self.assertGreater(len(calls), 8)
        self.assertEqual([it for it in calls if not hasattr(getattr(misteluk, it[0], misteluk), it[1])], [])
        alone = set(re.findall(r"`([a-z_]+)`", misteluk.__doc__ or ""))
        known = {*dir(misteluk), *dir(misteluk.Store), *dir(misteluk.Session), *dir(misteluk.Edges)}
        self.assertEqual(alone - known, set())

    def test_options_have_names(self):
        """A load's options, for completion: those that a feed is opened by, in each of the calls that take them."""
        options = {it.name for it in dataclasses.fields(ReadAs)}
        self.assertEqual(set(ReadOptions.__annotations__), options)
        for call in (misteluk.survey, misteluk.Store.load, misteluk.Store.follow):
            told = inspect.signature(call).parameters
            self.assertLess(options, set(told))
            self.assertNotIn('"', "".join(str(it.annotation) for it in told.values()))  # (as a prompt shows them)
            self.assertEqual([it for it in told.values() if it.kind == it.VAR_KEYWORD], [])
            self.assertEqual([it for it in options if f"`{it}" not in (call.__doc__ or "")], [])
        with misteluk.Store() as store:
            for told, call in (
                    ("Store.load has no option 'colums': there are data, by, batch, collect, skip_bad, rejects, progress, "
                     "columns, format, delimiter, header, ", lambda: store.load([("a", "b")], by="set", colums=None)),
                    ("Store.follow has no option 'keeps': there are feed, by, every, keep, ",
                     lambda: store.follow("x.csv", by="set", keeps="1d")),
                    ("survey has no option 'skip_bad': there are data, by, batch, ",
                     lambda: misteluk.survey([("a", "b")], by="set", skip_bad=True)),
                    ("Store has no option 'block': there are path, units, blocks, limits, seats, endless, sync, history",
                     lambda: misteluk.Store(block=16)),
                    ("Store.at has no option 'when': there are path, version, time, units, seats",
                     lambda: misteluk.Store.at("x.db", when=5)),
                    ("Store.restore has no option 'block': there are path, units, blocks, progress, limits, seats, endless",
                     lambda: misteluk.Store.restore("x.gz", block=16)),
                    ("view has no option 'before': there are session, around, hops, beside, kind, since, until, most, title",
                     lambda: misteluk.view(None, "a", before=None)),
                    ("connect has no option 'tokens': there are url, units, token, timeout, keep_alive",
                     lambda: misteluk.connect("http://localhost:1", tokens="x"))):
                self.refused(TypeError, told, call)

    def test_what_stands_where_another_thing_belongs(self):
        rows = [("a", "b")]
        with misteluk.Store() as store:
            for told, call in (
                    ("columns are said as Columns(weight='amount'), and not by dict",
                     lambda: store.load(rows, by="set", columns={"weight": "amount"})),
                    ("columns are said as Columns(weight='amount'), and not by list",
                     lambda: store.follow("x.csv", by="set", columns=["a", "b"])),
                    ("units are said as Units(weight_scale=100, times='iso'), and not as 'iso'",
                     lambda: misteluk.survey(rows, by="set", units="iso")),
                    ("units are said as Units(", lambda: misteluk.Store(units="iso")),
                    ("units are said as Units(", lambda: misteluk.Store.restore("x.gz", units=100)),
                    ("weight_scale is a whole number, as 100 for cents, and not 'cents'",
                     lambda: misteluk.Units(weight_scale="cents"))):
                self.refused(TypeError, told, call)
        self.assertEqual(repr(misteluk.survey([("a", ""), ("", "b"), ("a", "b")], by="set")),
                         "<Survey of rows: 3 rows, 2 names, 1 kind, 1 edge in 1 block; 1 batch needs 1 blocks; 2 bad rows>")

    @unittest.skipUnless(IS_REPOSITORY, NO_REPOSITORY)
    def test_the_table_of_names(self):
        """CHANGELOG has each name that was public and isn't, with what is there now; what is there is public."""
        text = (TOP / "CHANGELOG.md").read_text(encoding="utf-8")
        rows = [line.strip().strip("|").rsplit(" | ", 1) for line in text.splitlines() if re.match(r" *\| ", line)]
        cells = (re.findall(r"`[^`]*`", " ".join(it[at] for it in rows)) for at in (0, 1))
        old, new = (set(re.findall(r"\b[A-Za-z_]+\b", " ".join(it))) for it in cells)
        public = set(misteluk.__all__)
        self.assertEqual(set(WERE_PUBLIC) - old - public, set())
        self.assertEqual(public - set(WERE_PUBLIC) - new, set())
        calls = {it for kind in (misteluk.Store, misteluk.Session) for it in vars(kind) if not it.startswith("_")}
        self.assertEqual(calls - set(HAD_CALLS) - new, set())
        self.assertEqual(set(HAD_CALLS) - calls - old, set())


if __name__ == "__main__":
    unittest.main()
