"""python -m misteluk: load, restore, view. Values are worked out by hand."""
import argparse
import fcntl
import gzip
import io
import os
import shutil
import struct
import subprocess
import sys
import unittest
from contextlib import redirect_stderr, redirect_stdout

from support import HERE, IS_REPOSITORY, NO_REPOSITORY, TOP, Case, CommandCase, find_program, optional, words_of

import misteluk
from misteluk.command.main import main
from misteluk.command.options import make_parser
from misteluk.feeds.pipes import F_SETPIPE_SZ

PAIRS = "from,to,n,t\na,b,1,10\na,c,2,11\nc,d,3,12\na,b,4,13\nx,y,5,14\n"
OF_PAIRS = ("--source", "from", "--target", "to", "--weight", "n", "--time", "t")


class Commands(CommandCase):
    def load(self, wanted: str, *words: str) -> None:
        """Whether a load of the pairs prints these lines behind its first two."""
        status, out, err = self.run_it("load", self.file("p.csv", PAIRS), *OF_PAIRS, *words)
        self.assertEqual((status, err, "\n".join(out.splitlines()[2:])), (0, "", wanted))

    def test_load_and_ask(self):
        self.load("degrees: 6 names, greatest by out\n  a out 2 in 0 weight 7\n  c out 1 in 1 weight 3", "--add", "--ask",
                  "degrees", "--top", "2")
        self.load("degrees: 6 names, greatest by out\n  a out 2 in 0 weight 6", "--set", "--ask", "degrees", "--top", "1")
        self.load("degrees: 6 names, greatest by into\n  b out 0 in 1 weight 0", "--set", "--ask", "degrees", "--top", "1",
                  "--by", "into")
        self.load("degrees: 6 names, greatest by weight_out\n  a out 1 in 0 weight 5", "--add", "--ask", "degrees", "--top", "1",
                  "--by", "weight_out", "--since", "13")
        self.load("components: 2 of 6 names\n  a 4\n  x 2", "--add", "--ask", "components")
        self.load("components: 4 of 6 names\n  a 2", "--add", "--ask", "components", "--top", "1", "--since", "13")
        self.load("cores: 6 names, greatest 1\n  a 1", "--add", "--ask", "cores", "--top", "1")
        self.load("weights_in: 6 names, greatest 5\n  b 5\n  y 5\n  d 3", "--add", "--ask", "weights_in", "--top", "3")
        self.load("weights_in link: 6 names, greatest 5\n  b 5", "--add", "--ask", "weights_in link", "--top", "1", "--since",
                  "13")
        self.load("levels from a: 4 reached, the farthest at 2\n  0: 1\n  1: 2\n  2: 1", "--add", "--levels", "a")
        self.load("levels from a: 2 reached, the farthest at 1\n  0: 1\n  1: 1", "--add", "--levels", "a", "--until", "11")

    def test_load_and_ask_of_names(self):
        """Weights are sums, and a path goes along edges."""
        self.load("predecessors b: 1 edge\n  a weight 5 first 10 recent 13", "--add", "--ask", "predecessors b")
        self.load("successors a: 2 edges\n  b weight 5 first 10 recent 13", "--add", "--ask", "successors a", "--top", "1")
        self.load("path a d: 2 steps\n  a\n  c\n  d\npath d a: none\npath x y link: 1 step\n  x\n  y\npath a a: 0 steps\n  a",
                  "--add", "--ask", "path a d", "--ask", "path d a", "--ask", "path x y link", "--ask", "path a a")
        self.load("edge link a b: weight 5 first 10 recent 13", "--add", "--ask", "edge link a b")
        status, out, err = self.run_it("load", self.file("p.csv", PAIRS), *OF_PAIRS, "--add", "--ask", "path a nobody")
        self.assertEqual((status, "NoVertex" in err), (1, True))

    def test_load_and_ask_of_a_vertex_and_of_all(self):
        """Neighbors have an edge out, an edge in, or both; a neighborhood is along edges; edges are all, the heaviest first."""
        self.load("neighbors a: 2 neighbors\n  b out weight 5 first 10 recent 13, in none\n  c out weight 2 first 11 recent 11, "
                  "in none", "--add", "--ask", "neighbors a")
        self.load("neighbors c link: 2 neighbors\n  d out weight 3 first 12 recent 12, in none", "--add", "--ask",
                  "neighbors c link", "--top", "1")
        self.load("neighborhood a 1: 3 reached\n  a 0\n  b 1\n  c 1\nneighborhood a 2 link: 4 reached\n  a 0\n  b 1\n  c 1\n"
                  "  d 2", "--add", "--ask", "neighborhood a 1", "--ask", "neighborhood a 2 link")
        self.load("edges: 4 edges\n  link a b weight 5 first 10 recent 13\n  link x y weight 5 first 14 recent 14", "--add",
                  "--ask", "edges", "--top", "2")
        self.load("edges link: 1 edge\n  link x y weight 5 first 14 recent 14", "--add", "--ask", "edges link", "--since", "14")
        for wrong in ("neighborhood a", "neighborhood a b", "neighborhood a 1 link more", "neighbors", "edges a b"):
            with self.assertRaises(SystemExit), redirect_stderr(io.StringIO()) as told:
                main(["load", "x", "--set", "--ask", wrong])
            form = {"neighborhood": "NAME HOPS [KIND]", "neighbors": "NAME [KIND]", "edges": "[KIND]"}[wrong.split()[0]]
            self.assertIn(f"is asked as `{wrong.split()[0]} {form}`", told.getvalue())

    def test_edges_are_written(self):
        """All, or those of a window; from a file and from a saved one; packed as the name says, or refused before a load."""
        path, packed, saved = self.room / "e.csv", self.room / "e.csv.gz", str(self.room / "s.gz")
        wanted = ["kind,source,target,weight,first,recent", "link,a,b,5,10,13", "link,a,c,2,11,11", "link,c,d,3,12,12",
                  "link,x,y,5,14,14"]
        self.load(f"{path}: 4 edges of version 1", "--add", "--edges", str(path))
        self.assertEqual(path.read_text().splitlines(), wanted)
        self.assertEqual(self.run_it("load", self.file("p.csv", PAIRS), *OF_PAIRS, "--add", "--save", saved)[0], 0)
        status, out, _ = self.run_it("restore", saved, "--edges", packed, "--since", "14")
        self.assertEqual((status, out.splitlines()[1]), (0, f"{packed}: 1 edge of version 1"))
        self.assertEqual(gzip.open(packed, "rt").read().splitlines(), [wanted[0], wanted[4]])
        for wrong in (("--edges", self.room / "e.zip"), ("--edges", self.room / "none" / "e.csv"),
                      ("--edges", path, "--dry-run")):
            status, out, err = self.run_it("load", self.file("p.csv", PAIRS), *OF_PAIRS, "--add", *wrong)
            self.assertEqual((status, out), (1, ""), err)

    def test_the_version(self):
        for word in ("--version", "-V"):
            with self.assertRaises(SystemExit) as told, redirect_stdout(io.StringIO()) as out:
                main([word])
            self.assertEqual((told.exception.code, out.getvalue()), (0, f"misteluk {misteluk.__version__}\n"))

    def test_the_page_of_a_saved_file(self):
        saved, page = str(self.room / "s.gz"), self.room / "page.html"
        around = ("view", saved, "--around", "a", "-o", page)
        self.assertEqual(self.run_it("load", self.file("p.csv", PAIRS), *OF_PAIRS, "--add", "--save", saved)[0], 0)
        status, out, err = self.run_it(*around)
        self.assertEqual((status, out, err), (0, f"{page}: a, 2 hops, the saved version: 4 vertices; 3 edges\n", ""))
        self.assertIn("The saved version. 4 vertices within 2 hops of a", page.read_text())
        self.assertIn("a saved file has one version", self.run_it(*around, "--at", "12")[2])
        self.assertIn("No such file", self.run_it("view", "none.gz", "--around", "a", "-o", page)[2])
        for words in (("view", self.file("p.csv", PAIRS), "--around", "a", "-o", page), ("view", saved, "-o", page),
                      ("view", "-", "--around", "a", "-o", page)):
            with self.assertRaises(SystemExit) as told, redirect_stderr(io.StringIO()) as err:
                self.run_it(*words)
            self.assertEqual(told.exception.code, 2)
        status, _, err = self.run_it(*around, "--add")
        self.assertEqual(status, 1, err)

    def test_a_kind_by_column(self):
        path = self.file("k.csv", "kind,source,target\nowns,a,b\nknows,b,c\n")
        status, out, _ = self.run_it("load", path, "--set", "--kind", "kind", "--of-kind", "owns", "--levels", "a")
        self.assertEqual((status, out.splitlines()[2]), (0, "levels from a: 2 reached, the farthest at 1"))
        self.assertIn("2 rows, 3 names, 2 kinds, 2 edges in 2 blocks; 1 batch needs 2 blocks\n", out)

    def test_a_script(self):
        script = self.room / "s.csv"
        status, out, _ = self.run_it("load", self.file("p.csv", PAIRS), *OF_PAIRS, "--add", "--batch", "3", "--script", script)
        wanted = ("a,link,a,b,1,10", "a,link,a,c,2,11", "a,link,c,d,3,12", "commit", "collect", "a,link,a,b,4,13",
                  "a,link,x,y,5,14", "commit", "collect")
        self.assertEqual((status, script.read_text().splitlines()), (0, list(wanted)))
        self.assertEqual(words_of(script.read_bytes()), {})
        self.assertIn("9 records written to", out)
        for words in (("--script", script), ("--dry-run",)):  # (and nothing is loaded)
            status, out, _ = self.run_it("load", self.file("p.csv", PAIRS), *OF_PAIRS, "--add", *words)
            self.assertEqual((status, "inserted" in out, out.startswith(f"{self.room / 'p.csv'}: 5 rows")), (0, False, True))

    def test_save_and_restore(self):
        """What is saved is asked again; a file that is none is told of, and nothing is begun."""
        path = str(self.room / "g.csv.bz2")
        saved = f"{path}: version 1 with 6 names and 4 edges, in 20 records for `stinger run --blocks 16384`"
        degrees = "degrees: 6 names, greatest by out\n  a out 2 in 0 weight 7"
        self.load(f"{saved}\n{degrees}", "--add", "--save", path, "--ask", "degrees", "--top", "1")
        status, out, err = self.run_it("restore", path, "--ask", "degrees", "--top", "1", "--blocks", "64", "--levels", "x")
        levels = "levels from x: 2 reached, the farthest at 1\n  0: 1\n"
        wanted = f"{path}: 6 names and 4 edges restored in 3 of 64 blocks\n{degrees}\n{levels}"
        self.assertEqual((status, err, out), (0, "", wanted))
        status, out, err = self.run_it("restore", self.file("p.csv", PAIRS))
        self.assertEqual((status, out, "p.csv is no saved version" in err), (1, "", True), err)

    def test_faults(self):
        path = self.file("p.csv", PAIRS)
        for told, words in (("no column 'source'", ("load", path, "--add")),
                            ("No such file", ("load", "/no/such", "--add")),
                            ("a.csv: columns are named, and there is no header: the file is empty", (
                                "load", self.file("a.csv", ""), "--add")),
                            ("blocks is from 16", ("load", path, *OF_PAIRS, "--add", "--blocks", "7")),
                            ("NoVertex", ("load", path, *OF_PAIRS, "--add", "--levels", "z")),
                            ("--save and --edges are for what was loaded", (
                                "load", path, *OF_PAIRS, "--add", "--dry-run", "--save", "x")),
                            ("No such file", ("load", path, *OF_PAIRS, "--add", "--save", "/no/such/x")),
                            ("No such file", ("restore", "/no/such"))):
            status, _, err = self.run_it(*words)
            self.assertEqual((status, told in err), (1, True), err)

    def test_each_option_has_a_help(self):
        (commands,) = (it for it in make_parser()._actions if isinstance(it, argparse._SubParsersAction))
        self.assertEqual([(name, it.dest) for name, parser in commands.choices.items() for it in parser._actions
                          if not it.help], [])

    def test_a_number_of_rows(self):
        self.load("degrees: 6 names, greatest by out", "--add", "--ask", "degrees", "--top", "0")
        for it in ("-1", "x", "1.5"):
            err = io.StringIO()
            with self.assertRaises(SystemExit), redirect_stderr(err):
                main(["load", self.file("p.csv", PAIRS), *OF_PAIRS, "--add", "--ask", "degrees", f"--top={it}"])
            self.assertIn(f"argument --top: a number of rows is 0 or more, and not {it}\n", err.getvalue())

    def test_a_place_where_nothing_can_be_saved_is_told_first(self):
        path, saved = self.file("p.csv", PAIRS), str(self.room / "s.csv")
        self.run_it("load", path, *OF_PAIRS, "--add", "--save", saved)
        for words in (("load", path, *OF_PAIRS, "--add"), ("restore", saved)):
            for place, told in (("/no/such/x", "'/no/such'"), (str(self.room), "Is a directory")):
                status, out, err = self.run_it(*words, "--save", place)
                self.assertEqual((status, out, told in err), (1, "", True), err)

    def test_bad_rows_are_passed_over_where_that_is_said(self):
        path = self.file("p.csv", PAIRS + "e,,1,1\n")
        status, out, err = self.run_it("load", path, *OF_PAIRS, "--add", "--skip-bad")
        self.assertEqual((status, err), (0, ""))
        self.assertIn("p.csv:7: BadName: target ''", out)
        self.assertIn("4 edges inserted, 1 updated; version 1; 1 bad rows passed over", out)

    def test_a_file_of_many_batches(self):
        rows = "".join(f"s{it % 90},t{it % 1_000},1,{it}\n" for it in range(5_000))
        path = self.file("p.csv", "from,to,n,t\n" + rows)
        status, out, err = self.run_it("load", path, *OF_PAIRS, "--add", "--batch", "500", "--ask", "degrees", "--top", "1")
        self.assertEqual((status, err), (0, ""))
        self.assertIn("5020 records in", out)
        self.assertIn("updated; version 10\ndegrees: 1090 names, greatest by out\n  s0 out 56 in 0 weight 56", out)
        status, out, err = self.run_it("load", self.file("q.csv", "from,to,n,t\n" + rows + ",c,1,1\n"), *OF_PAIRS, "--add",
                                       "--batch", "500")
        self.assertEqual((status, out), (1, ""))
        self.assertIn("1 of 5001 rows can't be taken, and none is loaded\n", err)
        status, _, err = self.run_it("load", path, *OF_PAIRS, "--add", "--blocks", "16")
        self.assertIn("and the store was made with 16; nothing was sent", err)

    def test_the_third_field_of_an_edge_list(self):
        path = self.file("e.txt", "1 2 3\n")
        out = self.run_it("load", path, "--set", "--format", "snap", "--third", "weight", "--ask", "edge link 1 2")[1]
        self.assertEqual(out.splitlines()[2:], ["edge link 1 2: weight 3 first 0 recent 0"])

    def test_an_output_whose_reader_has_gone(self):
        """It ends quietly, with the status that a shell tells of such an end."""
        path, saved = self.file("p.csv", PAIRS), str(self.room / "s.csv")
        self.run_it("load", path, *OF_PAIRS, "--add", "--save", saved)
        much = ["--ask", "degrees"] * 100  # (more than the pipe has room for, so that the reader goes before all is written)
        for words in (("load", path, *OF_PAIRS, "--add", *much), ("restore", saved, "--ask", "cores")):
            reader, writer = os.pipe()
            fcntl.fcntl(writer, F_SETPIPE_SZ, 4_096)
            process = subprocess.Popen([sys.executable, "-m", "misteluk", *words], stdout=writer, stderr=subprocess.PIPE,
                                       cwd=HERE.parent)
            os.close(writer)
            if words[0] == "load":  # (one that reads a part, as `head` does)
                os.read(reader, 1)
            os.close(reader)
            self.assertEqual((process.communicate(timeout=60)[1], process.returncode), (b"", 141), words)

    def test_doctor(self):
        status, out, err = self.run_it("doctor")
        self.assertEqual((status, err), (0, ""))
        self.assertRegex(out, r"\na store of 65536 blocks and 2 seats answers\n")

    def test_interactive(self):
        words = ("load", self.file("p.csv", PAIRS), *OF_PAIRS, "--add", "--interactive")
        done = subprocess.run([sys.executable, "-m", "misteluk", *words], stdout=subprocess.PIPE, stderr=subprocess.PIPE,
                              input="print(session.edge('link', 'a', 'b').weight)\n", text=True, cwd=HERE.parent, timeout=60)
        self.assertEqual((done.returncode, "5\n" in done.stdout), (0, True), done.stderr)

    def around(self, told: str, *words: str, rows: str = PAIRS) -> str:
        """The page around `a` of these rows; what is printed of it is as told."""
        path, page = self.file("p.csv", rows), self.room / "a.html"
        status, out, err = self.run_it("view", path, *OF_PAIRS, "--add", "--around", "a", "-o", page, *words)
        self.assertEqual((status, err, out), (0, "", f"{page}: a, {told}\n"))
        return page.read_text()

    def test_a_page_around_a_vertex(self):
        self.around("1 hop, the whole file: 3 vertices; 2 edges", "--hops", "1")
        self.around("2 hops, the whole file: 2 vertices; 1 edge", "--since", "13")
        for batch in ("4096", "3", "2", "1"):
            page = self.around("2 hops, up to 12 beside the whole file: 4 vertices; 0 gone, 0 new, 1 changed, 2 kept edges",
                               "--at", "12", "--batch", batch)
            self.assertIn("<h2>Before: up to 12</h2>", page)
            for line, kinds in (("2", "2 new, 1 changed, 0 kept"), ("3", "1 new, 1 changed, 1 kept"),
                                ("4", "0 new, 1 changed, 2 kept")):
                self.around(f"2 hops, up to line {line} beside the whole file: 4 vertices; 0 gone, {kinds} edges",
                            "--at-line", line, "--batch", batch)
        page = self.around("2 hops, up to 12 beside the whole file: 4 vertices; 0 gone, 0 new, 1 changed, 2 kept edges", "--at",
                           "12", "--most", "2", "--title", "T", rows=PAIRS.replace("12", "9"))
        self.assertIn("<h1>T</h1>", page)
        self.assertIn("Drawn are 2 of 4 vertices", page)

    def test_pages_that_cant_be_made(self):
        for told, rows, words in (("ends in .html", PAIRS, ("--around", "a", "-o", "a.svg")),
                                  ("has no row up to 9", PAIRS, ("--around", "a", "--at", "9")),
                                  ("has all its rows up to line 6", PAIRS, ("--around", "a", "--at-line", "6")),
                                  ("p.csv:6: a row up to 12 stands behind line 5", PAIRS.replace("14", "9"),
                                   ("--around", "a", "--at", "12")),
                                  ("has a vertex 'z'", PAIRS, ("--around", "z")),
                                  ("hops is from 1", PAIRS, ("--around", "a", "--hops", "0"))):
            status, _, err = self.run_it("view", self.file("p.csv", rows), *OF_PAIRS, "--add", "-o",
                                         self.room / "a.html", *words)
            self.assertEqual((status, told in err), (1, True), err)
        self.assertFalse((self.room / "a.html").exists())


class Documents(Case):
    @unittest.skipUnless(optional("matplotlib"), "matplotlib is not there")
    @unittest.skipUnless(IS_REPOSITORY, NO_REPOSITORY)
    def test_the_pictures_of_the_documents_are_drawn_by_their_script(self):
        """In a copy; the same bytes where matplotlib is the version that drew them. What a browser, a stand-in here, is to draw
        is the page of the story, in the picture's size."""
        for it in ("examples", "python"):
            (self.room / it).symlink_to(TOP / it)
        for it in ("tools", "bin", "docs/pictures"):
            (self.room / it).mkdir(parents=True)
        shutil.copy(TOP / "tools/draw-pictures", self.room / "tools")
        (self.room / "bin/python3").symlink_to(sys.executable)
        browser = self.room / "bin/chromium"
        browser.write_text("#!/bin/sh\n" 'for page; do case "$page" in --screenshot=*) echo "$@" > "${page#*=}";; esac; done\n'
                           'cat "${page#file://}" > "$0.shown"\n')
        browser.chmod(0o755)
        env = {**os.environ, "PATH": f"{self.room}/bin:{os.environ['PATH']}", "MISTELUK_PROGRAM": find_program()}
        subprocess.run([self.room / "tools/draw-pictures"], stdout=subprocess.DEVNULL, env=env, check=True)
        for it in (self.room / "docs/pictures").glob("*.svg"):
            drawn, told = it.read_text(), (TOP / "docs/pictures" / it.name).read_text()
            self.assertTrue(drawn.rstrip().endswith("</svg>") and len(told) < 30_000)
            if f"Matplotlib v{optional('matplotlib').__version__}," in told:
                self.assertEqual(drawn, told)
        width, height = struct.unpack(">II", (TOP / "docs/pictures/funnel.png").read_bytes()[16:24])
        self.assertIn(f" --window-size={width},{height} ", (self.room / "docs/pictures/funnel.png").read_text())
        self.assertIn("offshore", (self.room / "bin/chromium.shown").read_text())
        self.assertEqual({it.name for it in (self.room / "docs/pictures").iterdir()}, {"debian-degrees.svg", "funnel.png"})


if __name__ == "__main__":
    find_program()
    unittest.main()
