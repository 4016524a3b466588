"""A server asked from R: examples/stories/served.R, beside sums over the same rows; and a file of edges that R reads."""
import collections
import csv
import decimal
import os
import shutil
import subprocess
import unittest
from typing import Counter, DefaultDict, Set

from serving import ServeCase
from support import TOP, Case

from misteluk import Units

SCRIPT, ROWS = TOP / "examples/stories/served.R", TOP / "examples/stories/transfers.csv"
HAS_R = shutil.which("Rscript") is not None and subprocess.run(
    ["Rscript", "-e", "library(httr)"], stdout=subprocess.DEVNULL, stderr=subprocess.DEVNULL).returncode == 0


@unittest.skipUnless(HAS_R, "Rscript with httr is not there (apt-get install r-base-core r-cran-httr)")
class AskedFromR(ServeCase):

    def test_the_script_prints_what_the_rows_say(self) -> None:
        sent: Counter[str] = collections.Counter()
        targets: DefaultDict[str, Set[str]] = collections.defaultdict(set)
        sources: DefaultDict[str, Set[str]] = collections.defaultdict(set)
        posted = []
        with open(ROWS, newline="", encoding="utf-8") as file:
            for row in csv.DictReader(file):
                posted.append(("add", "transfer", row["from"], row["to"], row["amount"], row["day"]))
                sent[row["from"]] += decimal.Decimal(row["amount"])  # type: ignore[assignment]
                targets[row["from"]].add(row["to"])
                sources[row["to"]].add(row["from"])
        server = self.fed(*posted, units=Units(100, "iso"))
        done = subprocess.run(["Rscript", str(SCRIPT), server.url], stdout=subprocess.PIPE, stderr=subprocess.PIPE, text=True)
        self.assertEqual((done.returncode, done.stderr), (0, ""))
        tables = [line.split() for line in done.stdout.splitlines()]
        self.assertEqual([tables[0], tables[4]], [["name", "out", "into", "weight_out"], ["name", "level"]])
        greatest = sorted(sent, key=lambda name: -sent[name])[:3]
        self.assertEqual([(name, int(out), int(into), decimal.Decimal(weight)) for name, out, into, weight in tables[1:4]],
                         [(name, len(targets[name]), len(sources[name]), sent[name]) for name in greatest])
        self.assertEqual({(name, int(level)) for name, level in tables[5:]},
                         {("ana", 0), *((name, 1) for name in targets["ana"])})
        self.assertEqual([it["clients"] for it in self.ask("/v1/stat").json["held"]], [0])


@unittest.skipUnless(shutil.which("Rscript"), "Rscript is not there (apt-get install r-base-core)")
class ReadByR(Case):
    def test_a_file_of_edges(self) -> None:
        """R's `read.csv` has the names as they are, weights and times as numbers, and dates as texts."""
        store = self.store(units=Units(100, "iso"))
        names = ['say "x"', "a,b", "Иванов Пётр", "7"]
        for at, name in enumerate(names):
            store.add("k,l", name, names[at - 1], f"{at}.25", f"2024-03-0{at + 1}")
        store.commit()
        path = str(self.room / "edges.csv")
        store.open().edges().to_csv(path)
        script = (f'edges <- read.csv("{path}"); cat(names(edges), sep = " "); cat("\n", sum(edges$weight), "\n", sep = "")\n'
                  'for (it in seq_len(nrow(edges))) cat(edges$source[it], edges$target[it], edges$kind[it], '
                  'format(as.Date(edges$recent[it])), sep = "|", fill = 1000)')
        done = subprocess.run(["Rscript", "-e", script], stdout=subprocess.PIPE, stderr=subprocess.PIPE, encoding="utf-8",
                              env={**os.environ, "LC_ALL": "C.UTF-8"})
        self.assertEqual((done.returncode, done.stderr), (0, ""))
        head, total, *rows = done.stdout.splitlines()
        self.assertEqual((head, total), ("kind source target weight first recent", "7"))
        self.assertEqual(sorted(rows), sorted(f"{name}|{names[at - 1]}|k,l|2024-03-0{at + 1}" for at, name in enumerate(names)))


if __name__ == "__main__":
    unittest.main()
