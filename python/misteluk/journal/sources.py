"""Who sent the batches of a store's file: what each producer sent last, the last keys, and how far followed feeds are in."""
from __future__ import annotations

import json
from dataclasses import dataclass, field
from typing import Any, Dict, List, NamedTuple, Optional, Tuple

from .tables import Written, digest
from ..engine.operations import Post
from ..errors import SequenceTaken
from ..feeds.steps import FeedMark
from ..values.answers import Commit

# How many keys are known, and how many files by the path of a feed: the last ones.
MOST_KEYS, MOST_FILES = 10_000, 16


class Taken(NamedTuple):
    """What was sent last by a producer, or by a key: its number, the digest of its records, and what the batch did."""

    sequence: Optional[int]
    digest: bytes
    commit: Commit


@dataclass
class Sources:
    """What each producer sent last, by its name; what came by each of the last keys, by who fed it and the key; and of each file
    that was followed, by the last of a path, how far it is in, as JSON."""

    producers: Dict[str, Taken] = field(default_factory=dict)
    keys: Dict[Tuple[str, str], Taken] = field(default_factory=dict)
    feeds: Dict[str, str] = field(default_factory=dict)

    def copy(self) -> "Sources":
        return Sources(dict(self.producers), dict(self.keys), dict(self.feeds))

    def take(self, row: Written, commit: Optional[Commit]) -> None:
        """Takes a batch, which did this; of one that nobody asks about again how far its feed is in."""
        if row.feed is not None:
            self._take_feed(row.feed)
        if row.producer is None or commit is None:
            return
        taken = Taken(row.sequence, digest(row.records), commit)
        if row.sequence is not None:
            self.producers[row.producer] = taken
            return
        self.keys[row.feeder or "", row.producer] = taken
        if len(self.keys) > MOST_KEYS:
            del self.keys[next(iter(self.keys))]

    def _take_feed(self, feed: str) -> None:
        """Takes how far a file is in, and forgets the one that was followed by its path long before."""
        mark = FeedMark.read(feed)
        self.feeds[f"{mark.turn} {mark.path}"] = feed
        self.feeds.pop(f"{mark.turn - MOST_FILES} {mark.path}", None)

    def first_answer(self, post: Post, feeder: Optional[str], records: Optional[bytes]) -> Optional[Commit]:
        """What the batch of this number or key did before; `None` where it is a new one. Without records that alone is asked.
        Raises `SequenceTaken` where another batch came by it, or a later one."""
        if post.sequence is None:
            known = self.keys.get((feeder or "", post.producer))
        else:
            known = self.producers.get(post.producer)
        if known is None or (post.sequence or 0) > (known.sequence or 0):
            return None
        if (post.sequence or 0) < (known.sequence or 0):
            raise SequenceTaken(f"{post.producer} has sent {known.sequence} by now, and what {post.sequence} did isn't known any "
                                "more", known.sequence)
        if records is not None and digest(records) != known.digest:
            told = "by this key" if post.sequence is None else f"as {post.sequence}"
            raise SequenceTaken(f"{post.producer} has sent another batch {told}", known.sequence)
        return known.commit

    # As a base has them.

    def written(self) -> bytes:
        """As JSON."""
        told: Dict[str, Any] = {
            "producers": {name: _told(it) for name, it in self.producers.items()},
            "keys": [[*key, *_told(it)] for key, it in self.keys.items()], "feeds": self.feeds}
        return json.dumps(told).encode("ascii")

    @staticmethod
    def read(data: bytes) -> "Sources":
        told = json.loads(data)
        return Sources({name: _taken(*it) for name, it in told["producers"].items()},
                       {(feeder, key): _taken(*it) for feeder, key, *it in told["keys"]}, told["feeds"])


def _told(taken: Taken) -> Tuple[Optional[int], str, List[Any]]:
    return taken.sequence, taken.digest.hex(), list(vars(taken.commit).values())


def _taken(sequence: Optional[int], told: str, commit: Any) -> Taken:
    return Taken(sequence, bytes.fromhex(told), Commit(*commit))
