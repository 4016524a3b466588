"""Posts of many rows: they are read beside the loop, in slices, and refused as soon as that can be seen."""
import collections
import http.client
import json
import random
import unittest
from unittest import mock

import waiting
from serving import ServeCase
from support import as_soon_as
from waiting import CSV, SIZE, filled

import misteluk
from misteluk.serve import bodies, feeding
from misteluk.serve.limits import ServerLimits
from misteluk.serve.people import EVERYONE


class Readers(unittest.TestCase):
    """What is read in slices is what `json` and `csv` read, whole or not at all."""

    def value(self, chance, depth=0):
        pick = chance.randrange(9 if depth < 4 else 6)
        if pick < 6:
            text = chance.choice(("", "a]", '"],[', "\\", "Иван", "\u2028", "{", "x" * chance.choice((1, 50, 2_000))))
            return (None, True, chance.randrange(-10**18, 10**18), chance.random() * 1e9, text, "],"[:chance.randrange(3)])[pick]
        many = range(chance.choice((0, 1, 3, 9)))
        if pick < 8:
            return [self.value(chance, depth + 1) for _ in many]
        return {f"n{it}],": self.value(chance, depth + 1) for it in many}

    def test_json(self):
        chance = random.Random(7)
        for _ in range(12):
            told = {"x": self.value(chance), "rows": [self.value(chance, 2) for _ in range(chance.choice((0, 3, 3_000)))]}
            text = json.dumps(told, ensure_ascii=chance.random() < 0.5, indent=chance.choice((None, None, 1)))
            reader = bodies.Reader(text)
            self.assertEqual(reader.whole(), json.loads(text))
            reader.end()
            self.assertEqual(bodies.loaded(text.encode("utf-8")), json.loads(text))

    def test_what_is_no_json(self):
        """Each text that `json` refuses is refused, wherever it is cut or changed."""
        chance = random.Random(11)
        text = json.dumps({"rows": [["add", "k", f"s{it}", "Иван]", 1.5, it] for it in range(700)]}, ensure_ascii=False)
        texts = [text[:chance.randrange(len(text))] for _ in range(20)]
        for _ in range(60):
            at = chance.randrange(len(text))
            texts.append(text[:at] + chance.choice('[]{},:"\\0\n x') + text[at + chance.randrange(2):])
        for it in [*texts, text + "x", text + ",", "", " ", "[" * 100_000]:
            try:
                wanted = json.loads(it)["rows"]
            except (ValueError, RecursionError):
                self.assertRaises(ValueError, lambda: list(bodies.rows_of_json(it.encode())))
                self.assertRaises(ValueError, bodies.loaded, it.encode() + b" " * (1 << 16))
                continue
            self.assertEqual(bodies.loaded(it.encode() + b" " * (1 << 16))["rows"], wanted)

    def test_a_fault_within_a_long_row(self):
        """It is the one that `json` finds, though more than a row's signs come behind it."""
        for size in (10, bodies.WINDOW // 2, bodies.WINDOW - 9, bodies.WINDOW + 99, bodies.LONGEST // 2):
            text = '{"rows": [["%s" x]%s]}' % ("a" * size, ',["expire", "1"]' * (bodies.LONGEST // 8))
            with self.assertRaises(json.JSONDecodeError) as wanted:
                json.loads(text)
            with self.assertRaises(ValueError) as told:
                list(bodies.rows_of_json(text.encode()))
            fault = wanted.exception
            self.assertEqual(str(told.exception), f"the body is no JSON: {fault.msg}: sign {fault.pos + 1:,}")

    def test_rows(self):
        rows = [["add", "k", f"s{it}]", '"],', it, 1] for it in range(5_000)]
        wanted = [tuple(map(str, it)) for it in rows]
        for told in ({"rows": rows}, {"x": [[], {"rows": 5}], "rows": rows, "y": "rows"}):
            for data in (json.dumps(told).encode(), json.dumps(told).encode("utf-16")):
                self.assertEqual(list(bodies.rows_of_json(data)), wanted)
        for wrong in ({"rows": 5}, {}, [], 5, {"rows": [5]}, {"rows": [{}]}, {"rows": [[None]]}, {"rows": [["add", "k", 1]]}):
            self.assertRaises(ValueError, lambda: list(bodies.rows_of_json(json.dumps(wrong).encode())))
        twice = b'{"rows": [["add"]], "rows": []}'
        self.assertRaises(ValueError, lambda: list(bodies.rows_of_json(twice)))
        text = 'add,"a ""b""\n\n,c",d\r\n\n\nexpire,5\n'.encode() * 3_000
        self.assertEqual(list(bodies.rows_of_csv(text)), [("add", 'a "b"\n\n,c', "d"), ("expire", "5")] * 3_000)
        for data, row, byte in ((b"\xff", 1, "0xff"), (b"a,b\n\n\nc,\xe4\n", 2, "0xe4"), (b'"a\nb",c\n"d\n\x80"', 2, "0x80")):
            self.assertRaisesRegex(ValueError, f"^row {row}: byte {byte} is no UTF-8$", lambda: list(bodies.rows_of_csv(data)))

    def test_no_step_is_long(self):
        """No value that one step reads is longer than a row may be; long texts outside of rows are."""
        sizes = [0]

        def seen(real):
            return lambda text, *at: sizes.append(len(text)) or real(text, *at)
        size = 1 << 17
        with mock.patch.object(bodies, "_decoded", seen(bodies._decoded)), \
                mock.patch.object(bodies, "_scanned", seen(bodies._scanned)), \
                mock.patch.object(bodies.json, "loads", seen(json.loads)):
            for data in (filled('{"x": "', "\\n", '", "rows": [[]]}', size),
                         filled('{"x": "', "\\ud83d\\ude00", '", "rows": [[]]}', size),
                         filled('{"rows": [', "[],", "[]]}", size), filled('{"rows": [', '["add", "k"],', "[]]}", size),
                         filled('{"x": [', "5,", '5], "rows": [[]]}', size),
                         filled('{"x": {', '"a": [[], 5],', '"b": 5}, "rows": [[]]}', size)):
                list(bodies.rows_of_json(data))
                self.assertLess(max(sizes), bodies.WINDOW + 9)
                self.assertGreater(len(sizes), size // bodies.WINDOW)
        self.assertEqual(bodies.loaded(filled('{"operations": "', "a,k,x,y,1,1\\n", '"}')),
                         {"operations": "a,k,x,y,1,1\n" * ((SIZE - 18) // 13)})

    def test_long_texts(self):
        """Escapes are read as `json` reads them, wherever a slice ends, and so is what is wrong."""
        chance = random.Random(3)
        parts = ("\\n", "\\ud83d\\ude00", "\\ud83d", "\\ude00", "a", "Ж", "\U0001f600", '\\"', "\\\\", "\\u0041", "x" * 50, "\\/")
        for at in range(2_000):
            text = "".join(chance.choice(parts) for _ in range(chance.randrange(40)))
            if at % 3 == 0 and text:
                where = chance.randrange(len(text))
                text = text[:where] + chance.choice('"\\u\0dDn') + text[where + chance.randrange(2):]
            text = f'"{text}{chance.choice(chr(34) * 4 + "x")}{chance.choice(("", "}", "]  ", "abcdefghijkl"))}'
            with mock.patch.object(bodies, "WINDOW", chance.choice((13, 17, 64))), mock.patch.object(bodies, "SHORT", 13):
                reader = bodies.Reader(text)
                try:
                    wanted = json.decoder.scanstring(text, 1, True)
                except ValueError:
                    self.assertRaises(json.JSONDecodeError, reader.text)
                else:
                    self.assertEqual((reader.text(), reader._at), wanted)

    def test_many_values(self):
        """Arrays that aren't rows have so many values, however they are nested."""
        with mock.patch.object(bodies, "MOST_VALUES", 4_096):
            for data in (filled('{"ends": [', "5,", "5]}", 1 << 17), filled('{"ends": [', "[[],[],[[]]],", "5]}", 1 << 17),
                         filled('{"ends": {', '"a":{},', '"b":5}}', 1 << 18)):
                self.assertRaisesRegex(bodies.TooLarge, "at most 4,096 values: ask several times", bodies.loaded, data)
            for part in (b"5,", b'["k","a","b"],'):
                found = bodies.loaded(b'{"ends": [%s5]}' % (part * 4_095) + b" " * (1 << 16))
                self.assertEqual(len(found["ends"]), 4_096)
        self.assertEqual(len(bodies.loaded(filled('{"operations": "', "[{", '"}', 1 << 21))["operations"]), (1 << 21) - 18)

    def test_what_is_too_long(self):
        for read, data in ((bodies.rows_of_json, filled('{"rows": [["add", "', "x", '"]]}')),
                           (bodies.rows_of_json, filled('{"rows": [[', '"x",', '"x"]]}')),
                           (bodies.rows_of_json, filled('{"rows": [[', "[],", "5]]}")),
                           (bodies.rows_of_csv, filled("add,", "x", "")), (bodies.rows_of_csv, filled("add,", ",", "")),
                           (bodies.rows_of_csv, filled("", '"\n",', ""))):
            self.assertRaisesRegex(bodies.TooLarge, "at most 262,144 signs", lambda: list(read(data)))
        with mock.patch.object(bodies, "MOST_ROWS", 1_000):
            for read, data in ((bodies.rows_of_json, filled('{"rows": [', "[],", "[]]}", 9_000)),
                               (bodies.rows_of_csv, b"expire,0\n" * 1_001)):
                self.assertRaisesRegex(bodies.TooLarge, "at most 1,000 rows: send several", lambda: list(read(data)))
            self.assertEqual(len(list(bodies.rows_of_csv(b"expire,0\n" * 1_000 + b"\n" * 5_000))), 1_000)


class Posts(ServeCase):
    """A server as a process, which is asked while 8 MB come: others wait at most 50 ms for that, whatever it is. (A busy machine
    delays them too. So this is asked of the longest step in which no other thread had its turn, in time of a processor.)"""

    STATUSES = {"CSV": 200, "empty rows": 400, "a batch of lines": 400}

    def test_others_are_answered_meanwhile(self):
        asker = waiting.Asker()
        self.addCleanup(asker.end)
        for name, status in self.STATUSES.items():
            tries = []
            with self.subTest(name):
                while not tries or min(it.step for it in tries) > waiting.MOST:
                    self.assertLess(len(tries), 6, tries)
                    tries.append(asker.beside(lambda: asker.sent(*self.bodies[name])))
                self.assertEqual({it.status for it in tries}, {status})

    @classmethod
    def setUpClass(cls):
        super().setUpClass()
        cls.bodies = waiting.bodies()


class Budgets(ServeCase):
    def test_all_bodies_together(self):
        """So many bytes of bodies are here at once; what is beyond is refused, and each is given back."""
        self.serve(limits=ServerLimits(body=1_024))
        body = b"add,k,a,b,1,1\n" * 70
        links = []
        self.addCleanup(lambda: [it.close() for it in links])
        api = self.server._api

        def begin(part):
            links.append(http.client.HTTPConnection("127.0.0.1", self.server.address.port, timeout=60))
            links[-1].putrequest("POST", "/v1/rows")
            links[-1].putheader("Content-Type", CSV)
            links[-1].putheader("Content-Length", str(len(body)))
            links[-1].endheaders()
            links[-1].send(body[:part])
        for at in range(8):
            begin(len(body) - 1)
            as_soon_as(lambda: api._taken == (at + 1) * (len(body) - 1))
        begin(len(body))
        told = links.pop().getresponse()
        self.assertEqual((told.status, json.loads(told.read())["error"]), (503, "TooMany"))
        for it in links:
            it.send(body[-1:])
            self.assertEqual(it.getresponse().status, 200)
        self.assertEqual((api._taken, self.rows_of("/v1/edges")[0][3]), (0, 8 * 70))
        begin(100)
        as_soon_as(lambda: api._taken == 100)
        links.pop().close()
        as_soon_as(lambda: api._taken == 0)

    def test_edges_that_are_asked_at_once(self):
        """A client asks as many as there are, some at a time, of one version."""
        server = self.fed(*(("add", "k", "a", f"b{it}", it + 1, 1) for it in range(11)))
        with misteluk.connect(server.url) as store, store.open() as session, \
                mock.patch("misteluk.serve.client.MOST_VALUES", 3):
            self.assertEqual([it.weight for it in session.get_edges([("k", "a", f"b{it}") for it in range(11)])],
                             list(range(1, 12)))
            self.assertEqual(list(session.get_edges([])), [])
        with misteluk.connect(server.url) as of_session, of_session.open() as session:
            self.assertEqual(len(session.get_edges([("k", "a", "b1")] * 65_537)), 65_537)

    def test_rows_are_let_go_by_batches(self):
        """Nobody has all of them at once to let go, whether they are applied or refused."""
        left = collections.deque(range(5))
        with self.assertRaises(KeyError), feeding.one_by_one(left):
            raise KeyError
        self.assertEqual(len(left), 0)
        self.serve()
        rows, sizes = [("add", "k", "a", "b", "1", "1")] * 10_000, []
        apply = self.server.feeding._apply
        with mock.patch.object(self.server.feeding, "_apply", lambda part, *rest: sizes.append(part.size) or apply(part, *rest)):
            found = self.server.feeding._records(rows)
            self.assertEqual([len(it) for it in found], [4_096, 4_096, 1_808])
            self.server.feeding._in_batches(found, EVERYONE)
        self.assertEqual((sizes, len(found)), ([4_096, 4_096, 1_808], 0))

    def test_all_or_none(self):
        """A row that is none refuses all, wherever it is, and no name of them is kept."""
        self.serve()
        rows = [["add", "k", "a", f"Имя {it}", 1, 1] for it in range(10_000)]
        for at in (0, 4_095, 4_096, 9_999):
            wrong = [*rows[:at], ["put"], *rows[at:]]
            found = self.post("/v1/rows", {"rows": wrong})
            self.assertEqual((found.status, found.json), (400, {
                "error": "BadCommand", "reason": f"row {at + 1}: an operation is insert, add, remove, expire"}))
        names = self.server.store._ledger.terms.names
        self.assertEqual((self.ask("/v1/stat").json["version"], len(names), len(self.server.store.kinds())), (0, 0, 0))
        self.assertEqual(self.post("/v1/rows", {"rows": rows}).json["inserted"], 10_000)
        self.assertEqual((len(names), list(self.server.store.kinds())), (10_000, ["k"]))


if __name__ == "__main__":
    unittest.main()
