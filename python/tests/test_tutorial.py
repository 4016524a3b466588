"""Runs each command of docs/TUTORIAL.md, docs/PYTHON.md and docs/PROGRAM.md, and README's parts for Python and for own data,
and compares what they print; and works out the stories' figures once more, by plain loops over their files."""
import contextlib
import csv
import datetime
import doctest
import io
import os
import pathlib
import re
import subprocess
import sys
import unittest
from collections import Counter, defaultdict

from support import HERE, TOP, Case, find_program, optional

TUTORIAL = TOP / "docs/TUTORIAL.md"


def commands(text):
    """Each command `$ ..` of an indented block, and the lines that it is to print."""
    for block in re.findall(r"(?m)(?:^    .*\n|^\n(?=    \S))+", text):
        parts = re.split(r"(?m)^    \$ ", block)[1:]
        for it in parts:
            command, _, lines = it.partition("\n")
            yield command, re.sub(r"(?m)^    ", "", lines).strip("\n")


def text_of(path):
    """A page, but for parts that other tests run: those with a server (test_serve_docs.py), with a process that is killed
    (test_touched.py), with dask (test_part.py)."""
    text = path.read_text(encoding="utf-8")
    for title in ("### A team on one feed\n", "### An alert that is reported once\n", "## Many graphs\n"):
        before, mark, part = text.partition(title)
        text = before + part[f"{part}\n## ".index("\n## "):] if mark else text
    return text


def is_like(told, wanted):
    """Whether the lines are the wanted ones, where `...` stands for any."""
    return re.fullmatch(".*".join(map(re.escape, wanted.split("..."))), told, re.S) is not None


class Documents(Case):
    def setUp(self):
        super().setUp()
        for it in ("examples", "python", "docs"):
            (self.room / it).symlink_to(TOP / it)
        (self.room / "stinger").symlink_to(pathlib.Path(find_program()).resolve())
        (self.room / "bin").mkdir()
        (self.room / "bin/python3").symlink_to(sys.executable)
        self.env = {**os.environ, "PATH": f"{self.room}/bin:{os.environ['PATH']}", "PYTHONPATH": str(HERE.parent),
                    "MISTELUK_PROGRAM": find_program()}

    def run_commands(self, path) -> int:
        """Runs the client's commands, those that show a file's head, and what stands before them on the page: a function of
        the shell, or a file that is written. Returns how many there were of the first two."""
        count, before = 0, ""
        for command, wanted in commands(text_of(path)):
            if re.fullmatch(r"\w+\(\) \{ .* \}|printf '[^']*' > \S+", command):
                before += f"{command}\n"
                continue
            names = "|".join(["misteluk", "stinger drive", "head", *re.findall(r"(?m)^(\w+)\(\) \{", before)])
            if not re.search(rf"\b({names})\b", command):
                continue
            run = subprocess.run(before + command, shell=True, executable="/bin/bash", cwd=self.room, env=self.env,
                                 stdout=subprocess.PIPE, stderr=subprocess.STDOUT, text=True, timeout=60)
            told = run.stdout.strip("\n")
            self.assertTrue(is_like(told, wanted), f"\n$ {command}\nprinted\n{told}\nand not\n{wanted}")
            count += 1
        return count

    def conversations(self, path) -> int:
        """Runs what stands behind >>>, and returns how many such lines there were."""
        here = os.getcwd()
        os.chdir(self.room)
        self.addCleanup(os.chdir, here)
        told, text = io.StringIO(), text_of(path)
        if all(map(optional, ("networkx", "pandas", "matplotlib"))):
            text = re.sub(" *# doctest: \\+SKIP", "", text)
        page = doctest.DocTestParser().get_doctest(text, {}, path.name, str(path), 0)
        runner = doctest.DocTestRunner(optionflags=doctest.ELLIPSIS | doctest.IGNORE_EXCEPTION_DETAIL)
        with contextlib.redirect_stdout(told):
            failed, tried = runner.run(page)
        self.assertEqual(failed, 0, told.getvalue())
        return tried

    def test_what_the_pages_show(self):
        """Commands and conversations. Who types them at a clone's top leaves files that git passes over: the gate notes what
        passed of a clean clone alone."""
        before = set(os.listdir(self.room))
        commands = [self.run_commands(TOP / it) for it in ("docs/TUTORIAL.md", "docs/PYTHON.md", "docs/PROGRAM.md", "README.md")]
        self.assertEqual(commands, [8, 1, 1, 1])
        for page, most in (("docs/TUTORIAL.md", 25), ("docs/PYTHON.md", 30), ("README.md", 1)):
            self.assertGreater(self.conversations(TOP / page), most, page)
        left = sorted(set(os.listdir(self.room)) - before)
        self.assertTrue({"funnel.html", "edges.csv", "roads.db", "graph.db", "bank.csv", "bank.csv.gz"} <= set(left), left)
        if (TOP / ".git").exists():
            self.are_passed_over(left)

    def are_passed_over(self, left):
        """What git says of files at a clone's top."""
        passed_over = subprocess.run(["git", "check-ignore", "--no-index", *left], cwd=TOP, stdout=subprocess.PIPE, text=True)
        self.assertEqual(passed_over.stdout.split(), left)
        others = subprocess.run(["git", "check-ignore", "--no-index", "examples/bank.csv", "new.csv"], cwd=TOP)
        self.assertEqual(others.returncode, 1)

    def test_a_line_that_differs_is_found(self):
        page = pathlib.Path(self.file("page.md", "\n    $ echo misteluk; echo two\n    misteluk\n    three\n"))
        self.assertRaises(AssertionError, self.run_commands, page)
        page.write_text("\n    $ echo misteluk 17 times\n    misteluk ... times\n")
        self.assertEqual(self.run_commands(page), 1)
        page.write_text("\n    $ say() { echo \"$@\"; }\n    $ printf 'a file' > of_words\n    $ say one\n    one\n"
                        "    $ say \"$(cat of_words)\"\n    a file\n")
        self.assertEqual(self.run_commands(page), 2)
        page.write_text(page.read_text().replace("    a file", "    another file"))
        self.assertRaises(AssertionError, self.run_commands, page)
        page.write_text("\n    >>> 1 + 1\n    3\n")
        self.assertRaises(AssertionError, self.conversations, page)


def read(name):
    with open(TOP / "examples/stories" / name) as file:
        return list(csv.DictReader(file))


def reached(edges, source):
    """The least number of edges on a walk from the source, by going from each front to the next."""
    levels, front = {source: 0}, {source}
    while front:
        front = {b for a, b in edges if a in front} - set(levels)
        levels.update(dict.fromkeys(front, max(levels.values()) + 1))
    return levels


class Figures(unittest.TestCase):
    """What the tutorial tells, worked out from its files without the store."""

    text = TUTORIAL.read_text()

    def told(self, *lines):
        self.assertEqual([it for it in lines if it not in self.text], [])

    def test_fraud(self):
        came, went, senders = Counter(), Counter(), defaultdict(set)
        for row in read("transfers.csv"):
            cents = int(row["amount"].replace(".", ""))
            came[row["to"]] += cents
            went[row["from"]] += cents
            senders[row["to"]].add(row["from"])
        def told(cents: int) -> str:
            return f"{cents // 100}.{cents % 100:02}"
        for it in (it for it in senders if len(senders[it]) >= 3):
            self.told(f"{it}: {len(senders[it])} senders, {told(came[it])} in, {told(went[it])} out, {went[it] / came[it]:.0%}")
        self.told(f"version 1: {told(came['funnel'])} in, {told(went['funnel'])} out")
        self.told(f"version 2: {told(came['funnel'] - 95_000)} in, {told(went['funnel'] - 94_000)} out")

    def test_network(self):
        rows = read("debian.csv")
        names = {it[end] for it in rows for end in ("package", "needs")}
        self.told(f"{len(rows)} rows, {len(names)} names, 2 kinds, {len(rows)} edges")
        late = [(it["package"], it["needs"]) for it in rows if int(it["uploaded"]) >= 20250101]
        parts, left = [], set(names)
        while left:
            parts.append(set(reached(late + [(b, a) for a, b in late], min(left))))
            left -= parts[-1]
        self.told(f"components: {len(parts)} of {len(names)} names\n      adduser {max(map(len, parts))}")
        (name, count), *_ = Counter(it["needs"] for it in rows).most_common()
        needs = sum(it["package"] == name for it in rows)
        self.told(f"      {name} out {needs} in {count} weight {needs}\n")
        self.assertEqual(round(5 * count / len(names)), 4)

    def test_the_greatest_core(self):
        """The 5-core, by taking away what has fewer than 5 neighbors; and that no 6-core is left."""
        beside = defaultdict(set)
        for it in read("debian.csv"):
            beside[it["package"]].add(it["needs"])
            beside[it["needs"]].add(it["package"])
        for least in (5, 6):
            core = set(beside)
            while True:
                weak = {it for it in core if len(beside[it] & core) < least}
                core -= weak
                if not weak:
                    break
            self.assertEqual(bool(core), least == 5)
            self.assertTrue(least == 6 or {"passwd", "libapt-pkg6.0", "libc6", "libsystemd0", "libselinux1"} <= core)

    def test_logistics(self):
        rows = [(datetime.date.fromisoformat(it["day"]), it["from"], it["to"], int(it["pallets"]))
                for it in read("shipments.csv")]
        for week in (10, 15, 16, 17, 21):
            now = max(day for day, *_ in rows if day.isocalendar()[1] == week)
            lanes = {(a, b) for day, a, b, _ in rows if now - datetime.timedelta(13) <= day <= now}
            legs = reached(lanes, "hamburg")["munich"]
            self.told(f"week {week}, version {week - 9}: {len(lanes)} lanes, {legs} legs from hamburg to munich")
        before = {(a, b) for day, a, b, _ in rows if day.isocalendar()[1] <= 15}
        ways = [{b for a, b in steps if a == "hamburg"} & {a for a, b in steps if b == "munich"} for steps in (before, lanes)]
        three = [(a, b) for a, b in lanes if {("hamburg", a), (b, "munich")} <= lanes]
        self.assertEqual((ways, three), ([{"kassel"}, set()], [("hannover", "leipzig")]))
        self.told("(['hamburg', 'kassel', 'munich'], ['hamburg', 'hannover', 'leipzig', 'munich'])")

    def test_the_pages(self):
        """What the two pages count, by dicts of edges before and after; weights tell what changed."""
        before, after = Counter(), Counter()
        for it in read("shipments.csv"):
            for graph in [before, after] if it["day"] <= "2024-04-15" else [after]:
                graph[it["from"], it["to"]] += int(it["pallets"])
        near = {"kassel", *(it for ends in after for it in ends if "kassel" in ends)}
        states = Counter("new" if ends not in before else "kept" if before[ends] == weight else "changed"
                         for ends, weight in after.items() if near.issuperset(ends))
        self.told(f"beside the whole file: {len(near)} vertices; 0 gone, {states['new']} new, {states['changed']} changed, "
                  f"{states['kept']} kept edges")
        self.assertEqual({ends for ends in after if near.issuperset(ends) and ends not in before},
                         {("hamburg", "hannover"), ("hannover", "leipzig"), ("leipzig", "frankfurt")})
        self.assertEqual(sum("kassel" in ends for ends in after), states["kept"])
        edges = {(it["from"], it["to"]) for it in read("transfers.csv")}
        near = {"funnel"}
        for _ in range(2):
            near |= {it for ends in edges if near & set(ends) for it in ends}
        kept = sum(near.issuperset(ends) for ends in edges) - 2
        self.told(f"version 1 beside version 2: {len(near)} vertices; 1 gone, 0 new, 1 changed, {kept} kept edges>")

    def test_a_feed(self):
        """Batches of 149 rows; behind each, the lanes that weren't used for 14 days go."""
        rows = [(datetime.date.fromisoformat(it["day"]), it["from"], it["to"], int(it["pallets"]))
                for it in read("shipments.csv")]
        lanes = {}
        for version, (begin, end) in enumerate(((0, 149), (149, 282)), 1):
            batch, inserted = rows[begin:end], 0
            for day, source, target, pallets in batch:
                inserted += (source, target) not in lanes
                weight, first, _ = lanes.get((source, target), (0, day, day))
                lanes[source, target] = weight + pallets, first, day
            newest = max(it[0] for it in rows[:end])
            old = [it for it, lane in lanes.items() if lane[2] < newest - datetime.timedelta(14)]
            for it in old:
                del lanes[it]
            counts = ((inserted, "inserted"), (len(batch) - inserted, "updated"), (len(old), "expired"))
            done = "".join(f", {count} {word}" for count, word in counts if count)
            lane = lanes.get(("hamburg", "kassel"))
            kassel = "weight {} first {} 00:00:00+00:00 recent {} 00:00:00+00:00".format(*lane) if lane else "none"
            self.told(f"    version {version}: {end} rows to line {end + 1}{done}; newest {newest} 00:00:00+00:00\n"
                      f"    edge link hamburg kassel: {kassel}\n")

    def test_the_made_data_are_what_their_script_makes(self):
        made = subprocess.run([sys.executable, TOP / "examples/stories/shipments.py"], stdout=subprocess.PIPE, text=True).stdout
        self.assertEqual(made, (TOP / "examples/stories/shipments.csv").read_text())


if __name__ == "__main__":
    unittest.main()
