"""What the store takes in a caller's process as the graph grows, by ctypes over libmisteluk.so: time an operation, memory an
edge, a version, a batch of one (the median of 200), each question, and a rebase.

    python3 -m bench run scale                      each shape at 2^14, 2^16, 2^18 and 2^20 names
    python3 -m bench run scale rmat 20 16000000     one shape, between 2^20 names, with so many insertions
    python3 -m bench run scale --scales 18          each shape at 2^18 names
    python3 -m bench run scale --endless rmat 22 64000000    a store that keeps no batches, for graphs that fill the memory

Shapes: `rmat` (Chakrabarti, Zhan, Faloutsos 2004: .57 .19 .19 .05), `transfers` (three edges a source, at random), `ordered`
(four edges a source, the sources in order). Each runs in a process of its own, so that memory is its own. Memory is what is
resident, less what was before the load; the columns that are loaded were made before. Seconds are of the processor. The library
is the proved one, or the one that MISTELUK_LIBRARY names.
"""
from __future__ import annotations

import argparse
import json
import os
import pathlib
import subprocess
import sys
from ctypes import c_uint32
from typing import Any, Callable, Dict, List

from bench import tables
from bench.calls import loaded, must
from bench.measuring import of_process, spread, stop, timed
from bench.places import TOP
from bench.stores.growing import SHAPES, SINGLE, STEP, Store, columns_of

Figures = Dict[str, Any]


def options(parser: argparse.ArgumentParser) -> None:
    parser.add_argument("run", nargs="*", metavar="SHAPE SCALE EDGES", help=f"one run; shapes are {', '.join(SHAPES)}")
    parser.add_argument("--scales", type=int, nargs="+", default=[14, 16, 18, 20], help="powers of two of names (14 16 18 20)")
    parser.add_argument("--endless", action="store_true", help="the store keeps no batches: it takes a fraction of the memory")
    parser.add_argument("--json", action="store_true", help="the figures of one run, in this process, as JSON")


def resident(word: str = "VmRSS") -> int:
    """Bytes: what is resident, or with `VmHWM` the most that ever was."""
    return of_process(word) * 1024


def seconds(do: Callable[[], Any]) -> float:
    return timed(do)[1].processor


def holds(store: Store) -> None:
    for _ in range(SINGLE):
        store.take()
        store.let_go()


def questions(store: Store, library: Any) -> Figures:
    number = c_uint32()
    store.take()
    must(library.version_vertex(store.version, b"v0", 2, number))
    store.vertices = store.stat().vertices
    found = {"degrees s": seconds(store.degrees), "components s": seconds(lambda: store.table(library.version_labels)),
             "cores s": seconds(lambda: store.table(library.version_cores)),
             "levels s": seconds(lambda: store.table(library.version_levels, number.value)), "edges s": seconds(store.edges)}
    store.let_go()
    return found


def measured(shape: str, scale: int, edges: int, endless: bool) -> Figures:
    columns, library = columns_of(shape, scale, edges), loaded()
    before = resident()
    spent = (store := Store(library, scale, edges, endless)).load(columns)
    stat, last = store.stat(), max(1, len(spent) // 8)
    store.vertices = stat.vertices
    found: Figures = {"shape": shape, "names": stat.vertices, "edges": stat.edges,
                      "us an operation": sum(spent) / edges * 1e6,
                      "last eighth": sum(spent[-last:]) / (min(STEP, edges) * last) * 1e6,
                      "bytes an edge": (resident() - before) / stat.edges}
    store.commits("", "", 2)  # The first brings the second table of rows up to the load's last batch.
    found["hold us"] = seconds(lambda: holds(store)) / SINGLE * 1e6
    for name, words in (("empty commit us", ("", "")), ("known names us", ("v%d", "v1%d")), ("new names us", ("s%d", "t%d"))):
        found[name] = spread(store.commits(*words)).median * 1e6
    found |= questions(store, library)
    held = resident()
    pathlib.Path("/proc/self/clear_refs").write_text("5")  # From here the kernel counts the peak anew.
    found["rebase s"] = seconds(lambda: must(library.desk_rebase(store.desk)))
    found["rebase peak"] = resident("VmHWM") / held
    found["after rebase"] = resident() / held
    return found


def shown(value: Any) -> str:
    return f"{value:,}" if isinstance(value, int) else f"{value:.3g}"


def in_own_process(shape: str, scale: int, edges: int, endless: bool) -> Figures:
    print(shape, scale, edges, file=sys.stderr)
    words = [sys.executable, "-m", "bench", "run", "scale", "--json", shape, str(scale), str(edges)]
    words += ["--endless"] if endless else []
    done = subprocess.run(words, cwd=TOP, stdout=subprocess.PIPE, text=True)
    if done.returncode:
        sys.exit(done.returncode)
    found: Figures = json.loads(done.stdout)
    return found


def measure(words: argparse.Namespace, _: pathlib.Path) -> None:
    runs = [(shape, scale, degree << scale) for scale in words.scales for shape, degree in SHAPES.items()]
    if words.run:
        if len(words.run) != 3 or words.run[0] not in SHAPES:
            stop(f"a run is a shape ({', '.join(SHAPES)}), a power of two of names, and a number of edges")
        runs = [(words.run[0], int(words.run[1]), int(words.run[2]))]
    if words.json:
        print(json.dumps(measured(*runs[0], words.endless)))
        return
    found: List[Figures] = [in_own_process(*it, words.endless) for it in runs]
    print(f"Python {sys.version.split()[0]}; load of the machine {os.getloadavg()[0]:.1f}; processor seconds\n")
    tables.show(["", *(it["shape"] for it in found)],
                ([name, *(shown(it[name]) for it in found)] for name in list(found[0])[1:]))
