"""How a store's file is hurt: killed writers, losses of power, damaged bytes, full disks. Each function tries it so many times,
raises `AssertionError` for the first file that isn't as it is promised, and counts what it met.

The test runs a few of each, and `tools/try-journal` many.
"""
import collections
import contextlib
import os
import random
import shutil
import subprocess
import sys
import time

from forking import Python
from journaled import Model, batch, put, told
from support import HERE

from misteluk import Store
from misteluk.errors import JournalFault, NotWritten
from misteluk.journal.checking import check
from misteluk.journal.wal import commits_lost

FILES = "graph.db", "graph.db-wal"
LOCK = "graph.db-lock"


def shim_in(room):
    """The library of shim.c, or nothing where no compiler is here."""
    made = room / "shim.so"
    compiler = shutil.which("cc")
    if compiler is None:
        return None
    subprocess.run([compiler, "-O1", "-shared", "-fPIC", "-o", made, HERE / "shim.c", "-ldl"], check=True)
    return made


def child(path, *words, **shim):
    """A process that feeds the store of a file until it is killed."""
    return Python([HERE / "journaled.py", path, *words], stdout=subprocess.PIPE, stderr=subprocess.PIPE, start_new_session=True,
                  env={**os.environ, "PYTHONDONTWRITEBYTECODE": "1", **{it: str(value) for it, value in shim.items()}})


def acknowledged(process, seconds):
    """Kills a child after so many seconds, and gives the last version that it was told of; -1 where it wasn't that far."""
    with process:
        assert process.stdout.readline() == b"begins\n", process.stderr.read().decode()
        time.sleep(seconds)
        process.kill()
        said, fault = process.stdout.read().splitlines(), process.stderr.read()
    assert not fault, fault.decode()
    return int(said[-1]) if said else -1


def copied(here, there):
    """A copy of a file and its lock, which is ended with the process that had it."""
    shutil.rmtree(there, ignore_errors=True)
    there.mkdir()
    for it in (*FILES, LOCK):
        if (here / it).exists():
            shutil.copy(here / it, there / it)
    return there / "graph.db"


def is_as_fed(path, model, found):
    """Opens a file, whose graph has to be that of exactly the first batches; gives how many these are."""
    with Store(path, sync="off") as store:
        version = store.stat().version
        model = model if model.version <= version else Model()
        assert told(store) == model.upto(version).told(), f"version {version} isn't the first {version} batches"
        found["by a base"] += store.file.recovered.base > 0
    assert check(path).faults == [], check(path).faults
    return version, model


def kills(room, count, seed=7):
    """kill -9 of a writer that commits, compacts and recovers. Every acknowledged batch is there."""
    chance, model, found, last = random.Random(seed), Model(), collections.Counter(), 0
    here = room / "kills"
    here.mkdir()
    for turn in range(count):
        said = acknowledged(child(here / "graph.db", "full", 25), chance.uniform(0, 0.3 if turn % 3 == 0 else 1.2))
        found["amid its opening" if said < 0 else "amid commits"] += 1
        last = max(last, said)
        assert commits_lost(here / "graph.db") == 0
        version, model = is_as_fed(copied(here, room / "asked"), model, found)
        assert last <= version <= last + 1, f"{last} were acknowledged, and {version} are there"
        found["with one that wasn't acknowledged"] += version > last
        last = version
    return {**found, "last version": last}


def losses(room, shim, count, sync="full", seed=3, most=(0, 1.2)):
    """Losses of power: what wasn't synced is gone, by shim.c. With "full" nothing that was acknowledged is lost; with "normal"
    exactly the first batches are there, and how many are missing is counted."""
    chance, model, found = random.Random(seed), Model(), collections.Counter()
    here, there = room / "power", room / "synced"
    for it in (here, there):
        shutil.rmtree(it, ignore_errors=True)
        it.mkdir()
    for _ in range(count):
        process = child(here / "graph.db", sync, 20, LD_PRELOAD=shim, SHIM_FROM=here, SHIM_TO=there)
        last = acknowledged(process, chance.uniform(*most))
        for it in there.glob("*.part*"):
            it.unlink()
        shutil.rmtree(here)
        shutil.copytree(there, here)
        found["with a -wal"] += (here / "graph.db-wal").exists() and (here / "graph.db-wal").stat().st_size > 0
        assert commits_lost(here / "graph.db") == 0
        if not (here / "graph.db").exists():
            assert last <= 0 or sync != "full", last
            continue
        version, model = is_as_fed(copied(here, room / "asked"), model, found)
        assert version >= last or sync != "full", f"{last} were acknowledged, and {version} are there"
        found["missing at most"] = max(found["missing at most"], last - version)
        found["ahead"] += version > last
    return dict(found)


def damages(room, count, seed=5):
    """Cuts, flipped bits and zeroed sectors of the database and the -wal. What an opening gives is the whole state, or that of
    all batches before the damage, or a fault; never another graph."""
    found, as_of = collections.Counter(), models()
    for name in FILES:
        here = room / f"whole-{name}"
        here.mkdir()
        made(room / f"made-{name}", here, in_wal=name.endswith("wal"))
        data, chance = (here / name).read_bytes(), random.Random(seed)
        assert told_of(copied(here, room / "hurt"), as_of) == "whole"
        for turn in range(count):
            how = ("cut", "flip", "flip", "zero")[turn % 4]
            hurt = damaged(data, how, chance)
            if hurt != data:
                path = copied(here, room / "hurt")
                (room / "hurt" / name).write_bytes(hurt)
                found[f"{name}, {how}: {told_of(path, as_of)}"] += 1
    return dict(sorted(found.items()))


def models():
    """The model as of each version of `made`."""
    return [Model().upto(it) for it in range(61)]


def whole(room):
    """A file of 60 batches without a base."""
    with Store(room / "graph.db", sync="off") as store:
        for number in range(1, 61):
            put(store, batch(number), producer="feed", sequence=number)
    return room / "graph.db"


def made(here, there, in_wal):
    """Makes a file of 60 batches and two bases, the last ones in the -wal, or all in the database."""
    here.mkdir()
    with Store(here / "graph.db", sync="off") as store:
        opened = store._engine._journal.opened
        opened.execute("PRAGMA wal_autocheckpoint=0")
        for number in range(1, 61):
            put(store, batch(number), producer="feed", sequence=number)
            if number in (20, 40):
                store.file.compact()
            if number == 40 or number == 60 and not in_wal:
                assert opened.execute("PRAGMA wal_checkpoint(TRUNCATE)").fetchone()[0] == 0
        copied(here, there)


def damaged(data, how, chance):
    hurt, at = bytearray(data), chance.randrange(len(data))
    if how == "cut":
        return bytes(hurt[:at])
    if how == "flip":
        hurt[at] ^= 1 << chance.randrange(8)
    else:
        at -= at % 512
        hurt[at:at + 512] = bytes(len(hurt[at:at + 512]))
    return bytes(hurt)


def told_of(path, models):
    """What an opening gives of a damaged file. Another graph is an `AssertionError`."""
    try:
        with Store(path, sync="off") as store:
            version, base = store.stat().version, store.file.recovered.base
            assert told(store) == models[version].told(), f"another graph as version {version}"
            by = "" if base == 40 else f", by the base of {base}"
            return ("whole" if version == 60 else "the last batch isn't there" if version == 59 else "FEWER WITHOUT A WORD") + by
    except JournalFault as fault:
        whole = fault.whole
    if whole is None:
        return "a fault"
    with Store.at(path, version=whole) as then:
        assert told(then) == models[whole].told(), f"another graph as of version {whole}"
    return "a fault, and the versions before it by Store.at"


def full(path, count=25):
    """Feeds a store whose writes fail now and then, by shim.c: the store stays as it was, and a repeat goes in once. (In a
    process of its own; prints how often it was told.)"""
    model, refused = Model(), 0
    with Store(path) as store:
        for number in range(1, count + 1):
            for _ in range(60):
                try:
                    assert put(store, batch(number), producer="feed", sequence=number).version == number
                    break
                except NotWritten:
                    refused += 1
                    assert told(store) == model.told(), "the store isn't as it was"
                    store.discard()
            model.upto(number)
            if number % 8 == 0:
                try:
                    store.file.compact(history=8)
                except NotWritten:
                    refused += 1
        assert told(store) == model.told()
    print(refused)


def full_disks(room, shim, numbers, width=6):
    """ENOSPC at the write of each number, and some behind it."""
    found = collections.Counter()
    for number in numbers:
        here = room / f"full-{number}"
        here.mkdir()
        words = [sys.executable, "-c", "import sys, crashing; crashing.full(sys.argv[1])", str(here / "graph.db")]
        shimmed = {"LD_PRELOAD": shim, "SHIM_FROM": here, "SHIM_WRITE": number, "SHIM_WRITE_TO": number + width}
        done = subprocess.run(words, cwd=HERE, stdout=subprocess.PIPE, stderr=subprocess.PIPE, text=True,
                              env={**os.environ, **{it: str(value) for it, value in shimmed.items()}})
        if done.returncode and "NotWritten" in done.stderr.splitlines()[-1] or "JournalFault" in done.stderr[-400:]:
            found["the opening was refused"] += 1
        else:
            assert done.returncode == 0, done.stderr
            found["told" if int(done.stdout) else "not met"] += 1
            assert is_as_fed(here / "graph.db", Model(), found)[0] == 25
        shutil.rmtree(here)
    return dict(found)


def unsynced(path, count=25):
    """Feeds a store whose syncs fail from one on, by shim.c, until it is told so: then nothing more goes in, and sessions answer
    as before. (In a process of its own; prints the last version that was acknowledged.)"""
    model = Model()
    with Store(path) as store:
        for number in range(1, count + 1):
            try:
                assert put(store, batch(number), producer="feed", sequence=number).version == number
            except JournalFault as fault:
                assert "a sync failed" in str(fault), fault
                refuses(store, model, number)
                break
            model.upto(number)
            if number % 8 == 0:
                with contextlib.suppress(JournalFault):
                    store.file.compact(history=8)
    print(model.version)


def refuses(store, model, number):
    """Asserts that a store whose sync failed takes nothing more, and is as it was."""
    for again in (number, number + 1):
        assert told(store) == model.told(), "the store isn't as it was"
        store.discard()
        try:
            put(store, batch(again), producer="feed", sequence=again)
        except JournalFault as fault:
            assert "a sync failed" in str(fault), fault
        else:
            raise AssertionError("a batch went in after a sync that failed")
    store.discard()


def failed_syncs(room, shim, numbers):
    """EIO at the sync of each number, and all that come after it. What was acknowledged is there at the next opening, which goes
    on; the batch whose sync failed is in or not, and its repeat goes in once."""
    found = collections.Counter()
    for number in numbers:
        here = room / f"unsynced-{number}"
        here.mkdir()
        words = [sys.executable, "-c", "import sys, crashing; crashing.unsynced(sys.argv[1])", str(here / "graph.db")]
        done = subprocess.run(words, cwd=HERE, stdout=subprocess.PIPE, stderr=subprocess.PIPE, text=True,
                              env={**os.environ, "LD_PRELOAD": str(shim), "SHIM_FROM": str(here), "SHIM_SYNC": str(number)})
        if done.returncode:
            assert "JournalFault" in done.stderr.splitlines()[-1], done.stderr
            found["the opening was refused"] += 1
        else:
            with Store(here / "graph.db", sync="off") as store:
                version, last = store.stat().version, int(done.stdout)
                assert last <= version <= last + 1, f"{last} were acknowledged, and {version} are there"
                found["not met" if last == 25 else "is there" if version > last else "isn't there"] += 1
                assert put(store, batch(last + 1), producer="feed", sequence=last + 1).version == last + 1
                assert told(store) == Model().upto(last + 1).told()
            assert check(here / "graph.db").faults == []
        shutil.rmtree(here)
    return dict(found)
