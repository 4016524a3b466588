"""Any text as a name: there and back, in each call, in errors and on the command line."""
import base64
import hashlib
import os
import random
import re
import subprocess
import sys
import threading
import unittest
from unittest import mock

from support import Case, CommandCase, HERE, row, words_of

import misteluk
from misteluk import Degree, Edge, Store
from misteluk.feeds.feed import Feed
from misteluk.feeds import terms
from misteluk.values import names
from misteluk.values.names import NameTable, id_of, shown

IVANOV, WANG, SPACES, LONG = "Иванов Пётр Сергеевич", "王小明", " a  b ", "x" * 120
AN_ID = "~~" + "A" * 20
PLAIN = ["a", "~~", "~~7", "~" * 64, "x" * 64, "~~" + "A" * 19, "~~" + "A" * 21, "~~" + "A" * 19 + ".", "*", '"', "a,b", "error"]
OTHERS = [IVANOV, WANG, SPACES, LONG, AN_ID, "é", " ", "a\nb", "\x00", "\u2028", "\U0001f600", "x" * 65, "ж" * 120, 'a "b", c',
          "\x7f",
          id_of(IVANOV), id_of(id_of(IVANOV)), "NL91 ABNA 0417 1643 00"]


class Tables(Case):
    def test_there_and_back(self):
        table = NameTable()
        there = {it: table.to_program(it) for it in PLAIN + OTHERS}
        for text, name in there.items():
            self.assertEqual(table.to_user(name), text)
            self.assertEqual(table.to_program(text), name)
            self.assertRegex(name, r"^[!-~]{1,64}$")
            self.assertEqual(name == text, text in PLAIN, text)
        self.assertEqual(len(set(there.values())), len(PLAIN + OTHERS))
        self.assertEqual(len(table), len(OTHERS))

    def test_few_names_are_kept_as_known(self):
        """What was looked at is known the next time, up to a number of names; then the next ones are looked at again."""
        known = terms.Terms()
        with mock.patch.object(terms, "MOST_KNOWN", 4):
            for it in range(9):
                self.assertTrue(known.knows([f"n{it}", "k"]))
                self.assertTrue({f"n{it}", "k"} <= known.right)
                self.assertEqual("n0" in known.right, it < 2)
                self.assertLessEqual(len(known.right), 4)
        self.assertFalse(known.knows(["n8", IVANOV]))
        self.assertFalse(known.knows(["n8", 7]))

    def test_an_id_is_made_of_the_text(self):
        made = hashlib.blake2b(IVANOV.encode(), digest_size=15).digest()
        self.assertEqual(NameTable().to_program(IVANOV), "~~" + base64.b64encode(made, b"-_").decode())
        self.assertEqual(len(id_of("é")), 22)

    def test_any_texts(self):
        draw, table, seen = random.Random(7), NameTable(), {}
        for _ in range(3_000):
            text = "".join(draw.choices(["a", "~", "~~", " ", "é", "王", AN_ID, "\n", "B" * 20], k=draw.randrange(1, 9)))
            name = table.to_program(text)
            self.assertEqual((seen.setdefault(name, text), table.to_user(name)), (text, text))

    def test_what_is_no_name(self):
        for text, told in (("", "at least one byte"), ("a\udcff", "a byte that was none")):
            with self.assertRaisesRegex(ValueError, told):
                NameTable().to_program(text)

    def test_two_texts_that_had_one_id(self):
        with mock.patch.object(names, "id_of", lambda text, turn=0: f"~~{turn:020}"):
            table = NameTable()
            self.assertEqual([table.to_program(it) for it in ("é", "ü", "é")], [f"~~{0:020}", f"~~{1:020}", f"~~{0:020}"])
            self.assertEqual([table.to_user(f"~~{it:020}") for it in (0, 1)], ["é", "ü"])
            self.assertEqual((table.to_program("ö", keep=False), len(table)), (f"~~{2:020}", 2))
            other = NameTable()
            other.to_program("ü")
            with self.assertRaisesRegex(ValueError, "count again"):
                table.take(other)

    def test_from_several_threads(self):
        table, texts, found = NameTable(), [f"ж{it}" for it in range(400)], []
        threads = [threading.Thread(target=lambda: found.append([table.to_program(it) for it in texts])) for _ in range(4)]
        for it in threads:
            it.start()
        for it in threads:
            it.join()
        self.assertEqual((len(found), len(set(map(tuple, found))), len(table)), (4, 1, 400))
        self.assertEqual(table.all_to_user(found[0]), texts)


class Stores(Case):
    KIND = "перевод денег"

    def filled(self, **options) -> Store:
        """A walk from the first of OTHERS to the last, in one kind."""
        store = self.store(**options)
        for at, it in enumerate(OTHERS[1:]):
            store.insert(self.KIND, OTHERS[at], it, at + 1, at)
        store.commit()
        return store

    def test_answers(self):
        store = self.filled()
        session = store.open()
        self.assertEqual(session.levels(IVANOV), {it: at for at, it in enumerate(OTHERS)})
        self.assertEqual(session.levels(WANG, self.KIND, until=2), {WANG: 0, SPACES: 1, LONG: 2})
        self.assertEqual(session.components(self.KIND), dict.fromkeys(OTHERS, IVANOV))
        self.assertEqual(session.cores(), dict.fromkeys(OTHERS, 1))
        self.assertEqual(session.degrees(self.KIND)[LONG], Degree(1, 1, 4))
        self.assertEqual(list(session.degrees()), OTHERS)
        self.assertEqual(session.degrees().top(1, by="weight_out")[0][0], OTHERS[-2])
        self.assertEqual(session.edge(self.KIND, AN_ID, "é"), Edge(5, 4, 4))
        self.assertEqual(session.get_edges([(self.KIND, IVANOV, WANG), (self.KIND, WANG, IVANOV)]), [Edge(1, 0, 0), None])
        self.assertEqual((session.predecessors(IVANOV), session.predecessors(WANG)), ({}, {IVANOV: Edge(1, 0, 0)}))
        self.assertEqual(session.successors(SPACES, self.KIND), {LONG: Edge(3, 2, 2)})
        self.assertEqual(store.kinds(), [self.KIND])
        self.assertIn(f"<td>{WANG}</td>", session.components()._repr_html_())
        self.assertEqual(session.levels(IVANOV, until=0).request, f"levels({IVANOV!r}, until=0)")

    def test_operations(self):
        store = self.filled()
        store.add(self.KIND, IVANOV, WANG, 5, time=9)
        store.remove(self.KIND, WANG, SPACES)
        store.remove(self.KIND, WANG, "nobody at all")
        self.assertEqual(row(store.commit())[1:5], (0, 1, 1, 1))
        with store.open() as session:
            self.assertEqual((session.edge(self.KIND, IVANOV, WANG), session.edge(self.KIND, WANG, SPACES)), (Edge(6, 0, 9),
                                                                                                              None))
        store.compact(store.open())
        self.assertEqual(store.open().edge(self.KIND, LONG, AN_ID), Edge(4, 3, 3))

    def test_a_name_in_the_form_of_another_s_id(self):
        """Whoever is told first, no two texts become one vertex."""
        for pair in ((IVANOV, id_of(IVANOV)), (id_of(IVANOV), IVANOV)):
            store = self.store()
            store.insert("k", pair[0], "t")
            store.commit()
            session = store.open()
            self.refused(misteluk.NoVertex, repr(pair[1])[1:-1], lambda: session.levels(pair[1]))
            store.insert("k", pair[1], "t")
            store.commit()
            self.assertEqual(list(store.open().degrees()), [pair[0], "t", pair[1]])

    def test_errors(self):
        store = self.filled()
        session = store.open()
        nobody = "Никто Никтович"
        self.refused(misteluk.NoVertex, f": levels({nobody!r})", lambda: session.levels(nobody))
        self.refused(misteluk.NoVertex, f"edge({self.KIND!r}, {IVANOV!r}, {nobody!r})",
                     lambda: session.edge(self.KIND, IVANOV, nobody))
        self.refused(misteluk.NoVertex, nobody, lambda: session.get_edges([(self.KIND, IVANOV, WANG),
                                                                           (self.KIND, IVANOV, nobody)]))
        self.refused(misteluk.NoVertex, nobody, lambda: session.predecessors(nobody))
        self.refused(misteluk.errors.NoKind, f"degrees(kind={nobody!r})", lambda: session.degrees(nobody))
        self.refused(misteluk.errors.BadWindow, f"levels({IVANOV!r}, since=3, until=2): since 3 is after until 2",
                     lambda: session.levels(IVANOV, since=3, until=2))
        self.refused(misteluk.NoVertex, r"'a b\nc'", lambda: session.levels("a b\nc"))
        self.assertEqual(session.get_edges([(self.KIND, nobody, WANG), (nobody, IVANOV, WANG)], missing=7), [7, 7])
        self.assertEqual(len(store._ledger.terms.names), len(OTHERS) + 1)  # (a question keeps no name)
        store.insert("k", nobody, "t")
        store.commit()
        self.refused(misteluk.NoVertex, nobody, lambda: session.levels(nobody))
        self.assertEqual(store.open().levels(nobody), {nobody: 0, "t": 1})
        for call, told in ((lambda: store.insert("*", WANG, "t"), "kind '*'"), (lambda: store.insert("k", WANG, ""), "target ''"),
                           (lambda: store.insert("", WANG, "t"), "kind ''"),
                           (lambda: store.remove("k", "\udcff", "t"), r"source '\udcff'")):
            self.refused(misteluk.errors.BadName, told, call)
        self.refused(misteluk.errors.BadWeight, "weight '1.5'", lambda: store.insert("k", WANG, "t", 1.5))
        self.assertEqual(store.pending, 0)

    def test_what_is_lost_is_told_by_its_names(self):
        with self.assertRaises(misteluk.errors.Uncommitted) as told:
            with Store() as store:
                store.insert("k", IVANOV, 'a "b", c', 7)
                store.remove("k", WANG, "b")
        self.assertEqual(told.exception.operations, [f'i,k,{IVANOV},"a ""b"", c",7,0\n', f"r,k,{WANG},b\n"])


class Loads(Case):
    ROWS = [(at, "k k", source, target, "1", str(at)) for at, (source, target) in enumerate(zip(OTHERS, OTHERS[1:]), 1)]

    def test_a_feed(self):
        store = self.store()
        loaded = store.load(Feed("f", self.ROWS + [(90, "k k", "a", "b", "1", "0"), (91, "k k", "a,b", WANG, "2", "0")]),
                            by="set")
        self.assertEqual((loaded.survey.vertices, loaded.survey.kinds, loaded.survey.edges), (len(OTHERS) + 3, ["k k"],
                                                                                           len(OTHERS) + 1))
        session = store.open()
        self.assertEqual(list(session.degrees()), OTHERS + ["a", "b", "a,b"])
        self.assertEqual((session.edge("k k", IVANOV, WANG), session.edge("k k", "a,b", WANG)), (Edge(1, 1, 1), Edge(2, 0, 0)))
        self.assertEqual(store.kinds(), ["k k"])

    def test_a_survey_from_before_there_was_a_store(self):
        found = misteluk.survey(Feed("f", self.ROWS), by="set")
        store = self.store()
        store.insert("k", WANG, id_of(WANG))
        store.commit()
        store.load(found, by="set")
        self.assertEqual(list(store.open().degrees()), [WANG, id_of(WANG), *(it for it in OTHERS if it != WANG)])
        self.assertEqual(words_of(b"".join(it.text for it in found.parts)), {})

    def test_bad_rows(self):
        rows = [(1, "k", IVANOV, WANG, "1.5", "0"), (2, "k", IVANOV, "", "1", "0"), (3, "*", IVANOV, WANG, "1", "0"),
                (4, "k", IVANOV, WANG, "1", "0"), (5, "k", "\udcff", WANG, "1", "0")]
        found = misteluk.survey(Feed("f", rows), by="set")
        self.assertEqual([(it.place.line, it.word, it.fault.value) for it in found.faults], [
            (1, "BadWeight", "1.5"), (2, "BadName", ""), (3, "BadName", "*"), (5, "BadName", "\udcff")])
        self.assertEqual([list(it.lines) for it in found.parts], [[4]])
        self.assertNotIn("escape", str(found.faults[1]))

    def test_the_same_as_with_plain_names(self):
        """A random feed under plain names and under others: the same counts, and the same answers."""
        draw = random.Random(11)
        rows = [(at, f"k{draw.randrange(3)}", f"v{draw.randrange(40)}", f"v{draw.randrange(40)}", str(draw.randrange(9)), str(at))
                for at in range(1, 900)]
        other = {f"v{it}": f"узел № {it}" for it in range(40)}
        told = [(at, kind, other[source], other[target], *rest) for at, kind, source, target, *rest in rows]
        plain, named = self.store(), self.store()
        counts = [store.load(Feed("f", feed), by="add", batch=100).survey for store, feed in ((plain, rows), (named, told))]
        self.assertEqual(counts[0].counts(), counts[1].counts())
        one, two = plain.open(), named.open()
        self.assertEqual({other[it]: value for it, value in one.degrees("k1").items()}, two.degrees("k1"))
        self.assertEqual({other[it]: other[label] for it, label in one.components("k2").items()}, two.components("k2"))
        self.assertEqual({other[it]: edge for it, edge in one.predecessors("v3", "k0").items()},
                         two.predecessors(other["v3"], "k0"))

    def test_escapes_stay(self):
        store = self.store()
        store.load(Feed("f", [(1, "k", "a b", "50%", "1", "0")]), by="set", names="escape")
        self.assertEqual(list(store.open().degrees()), ["a%20b", "50%25"])


class Commands(CommandCase):
    def people(self) -> tuple:
        text = f'от,кому\n{IVANOV},{WANG}\n{WANG},{SPACES}\n{IVANOV},"a\nb"\nann,{LONG}\n'
        (self.room / "p.csv").write_text(text, encoding="utf-8")
        return str(self.room / "p.csv"), "--source", "от", "--target", "кому", "--set", "--default-kind", "шлёт"

    def test_tables(self):
        status, out, err = self.run_it("load", *self.people(), "--ask", "degrees", "--ask", "components", "--levels", IVANOV,
                                       "--of-kind",
                                       "шлёт", "--top", "5")
        self.assertEqual((status, err, out.splitlines()[2:]), (0, "", [
            "degrees: 6 names, greatest by out", f"  {IVANOV} out 2 in 0 weight 2", f"  {WANG} out 1 in 1 weight 1",
            "  ann out 1 in 0 weight 1",
            f"  {SPACES} out 0 in 1 weight 0", r"  'a\nb' out 0 in 1 weight 0", "components: 2 of 6 names", f"  {IVANOV} 4",
            "  ann 2",
            f"levels from {IVANOV}: 4 reached, the farthest at 2", "  0: 1", "  1: 2", "  2: 1"]))
        status, _, err = self.run_it("load", *self.people(), "--levels", "Никто")
        self.assertEqual((status, "levels('Никто')" in err), (1, True), err)

    def test_a_script_has_ids(self):
        script = self.room / "s.csv"
        status, out, _ = self.run_it("load", *self.people(), "--script", script)
        self.assertIn("6 names and kinds stand in it as ids", out)
        self.assertEqual(script.read_text().splitlines()[0], f"i,{id_of('шлёт')},{id_of(IVANOV)},{id_of(WANG)},1,0")
        self.assertEqual((status, words_of(script.read_bytes())), (0, {}))

    def test_a_terminal_without_these_signs(self):
        done = subprocess.run([sys.executable, "-m", "misteluk", "load", *self.people(), "--ask", "degrees", "--top", "1"],
                              env={**os.environ, "PYTHONIOENCODING": "ascii", "PYTHONPATH": str(HERE.parent)},
                              stdout=subprocess.PIPE,
                              stderr=subprocess.PIPE, timeout=60)
        self.assertEqual(done.returncode, 0, done.stderr)
        self.assertTrue(re.search(rb"(?m)^  \\u0418\\u0432", done.stdout), done.stdout)

    def test_what_is_shown(self):
        self.assertEqual([shown(it) for it in (IVANOV, "a\nb", "\x1b[31m", "a b")], [IVANOV, r"'a\nb'", r"'\x1b[31m'", "a b"])


if __name__ == "__main__":
    unittest.main()
