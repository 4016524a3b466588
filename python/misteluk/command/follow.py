"""`misteluk follow`: a feed's commits and the answers behind each of them, as lines or as lines of JSON."""
from __future__ import annotations

import argparse
import json
import os
import signal
import sys
import time
from contextlib import contextmanager
from typing import Any, Callable, Dict, Iterator, List, Optional

from ..errors import StoreError
from ..feeds.following import Following
from ..feeds.spans import kept_time
from ..feeds.steps import Followed
from .questions import lines
from ..store import Store
from ..values.texts import for_json

SIGNALS = (signal.SIGINT, signal.SIGTERM)
# Signals within so many seconds are one: `timeout` sends its own to the process and to the group that it is in.
AT_ONCE = 0.2


@contextmanager
def ended_by_signals(stop: Callable[[], None], cord: int) -> Iterator[None]:
    """Ctrl-C and SIGTERM call `stop` meanwhile; another of them that comes behind it ends the process at once. Each wakes those
    that wait for something to be written to `cord`: the system may give it to another thread, as where the process stood
    still."""
    before = {it: signal.getsignal(it) for it in SIGNALS}
    heard: List[float] = []

    def hear(number: int, _: Any) -> None:
        heard.append(time.monotonic())
        if len(heard) == 1:
            stop()
        elif heard[-1] - heard[0] > AT_ONCE:
            signal.signal(number, signal.SIG_DFL)
            os.kill(os.getpid(), number)
    for it in SIGNALS:
        signal.signal(it, hear)
    woken = signal.set_wakeup_fd(cord, warn_on_full_buffer=False)
    try:
        yield
    finally:
        signal.set_wakeup_fd(woken)
        if heard:
            time.sleep(max(0.0, heard[0] + AT_ONCE - time.monotonic()))
        for it, how in before.items():
            signal.signal(it, how)


def descriptor_of(file: Any) -> Optional[int]:
    """The file's descriptor, or `None` where it's a text in memory, or closed."""
    try:
        return int(file.fileno())
    except (OSError, AttributeError):
        return None


def leave_output() -> None:
    """Lets go what is still to be written to standard output, whose reader has gone."""
    os.dup2(os.open(os.devnull, os.O_WRONLY), sys.stdout.fileno())


class Teller:
    """Tells of the steps of a feed that is followed, and asks behind each."""

    def __init__(self, words: argparse.Namespace, store: Store[Any, Any], following: Following) -> None:
        self.words, self.store, self.following = words, store, following
        self.units = store.units
        self.within = kept_time(words.within, self.units, "within")
        self.faults_told = 0

    def run(self) -> None:
        """Tells of each step until there is none. An output whose reader has gone ends it, also while there is no row."""
        output = descriptor_of(sys.stdout)
        while True:
            try:
                step = self.following._step(output)
            except StopIteration:
                return
            finally:
                self.tell_faults()
            self.following._progress.clear()
            self.tell(step)
            if sys.stdout:
                sys.stdout.flush()

    def tell(self, step: Followed) -> None:
        told = {**vars(step.commit), "rows": step.rows, "bad": step.bad, "line": step.line, "newest": step.newest,
                **({} if step.last_bad is None else {"last_bad": vars(step.last_bad)}),
                **({} if step.behind is None else {"behind": step.behind})}
        self.write(told) if self.words.json else print(step)
        if not self.words.ask:
            return
        with self.store.open() as session:
            for it in self.words.ask:
                found = it.asked(session, self.words.top, self.words.column, self.window(step))
                if self.words.json:
                    self.write({"version": session.version, "asked": it.text, **found})
                else:
                    print(*lines(it, found, self.words.top), sep="\n")

    def window(self, step: Followed) -> Dict[str, Any]:
        """The last part of the feed's time, where one is asked for."""
        if self.within is None:
            return {}
        newest = int(self.units._time_to_program(str(step.newest)))
        return {"since": self.units._time_to_user(max(newest - self.within, 0)), "until": step.newest}

    def write(self, told: Dict[str, Any]) -> None:
        print(json.dumps(told, default=for_json, ensure_ascii=False))

    def tell_faults(self) -> None:
        """Tells of bad rows that were passed over since the last time, as they are told of in a load: the first ones."""
        faults = self.following._count.faults if self.words.skip_bad else []
        for it in faults[self.faults_told:]:
            self.following._progress.clear()
            print(f"misteluk: passed over: {it.message}", file=sys.stderr)
        self.faults_told = len(faults)


def follow(words: argparse.Namespace, store: Store[Any, Any], how: Dict[str, Any]) -> int:
    """Follows a feed and tells of it, until it ends or is ended."""
    with store.follow(words.file, every=words.every, keep=words.keep, ahead=words.ahead, until_end=words.until_end,
                      skip_bad=words.skip_bad, rejects=words.rejects, batch=words.batch, **how) as following:
        try:
            with ended_by_signals(following.stop, following._source.cord):
                Teller(words, store, following).run()
        except BrokenPipeError:
            leave_output()
            store.discard()
            return 0
        except StoreError:
            store.discard()  # (the fault says which rows aren't in)
            raise
        left = ("; more is there that wasn't read" if following._source.has_unread else
                "; the last line isn't whole yet, and not in" if following._half_line else "")
        following.close()
        print(f"misteluk: {following._told}{left}", file=sys.stderr)
    return 0
