"""Several questions of one version, asked by one request."""
from __future__ import annotations

import json
from typing import Any, Dict, Iterator, List, Mapping, NamedTuple, Optional

from . import wire
from .board import Board
from .faults import status_and_word, told_of
from .limits import MOST_QUESTIONS
from .people import Person
from .questions import HELD, QUESTIONS, ServedQuestion
from ..engine.protocol import Denied
from ..errors import StoreError
from ..session import Session
from ..values.texts import text_of

_BY_NAME = {it.name: it for it in QUESTIONS if it.media == wire.JSON and not it.is_of_two}
FORM = '{"questions": [{"question": "levels", "source": NAME}, ..]}'


class Several(NamedTuple):
    """What is asked: each question with what it is asked with, of a session's version, or of this one, or the last."""

    questions: List[Any]
    session: Optional[str] = None
    version: Optional[int] = None

    @staticmethod
    def of(asked: Mapping[str, Any]) -> "Several":
        """What a body asks. Raises `ValueError` where it is of another form, or has too many questions."""
        questions = asked.get("questions")
        if not isinstance(questions, list) or not all(isinstance(it, dict) for it in questions):
            raise ValueError(f"questions are {FORM}")
        if len(questions) > MOST_QUESTIONS:
            raise ValueError(f"a request has at most {MOST_QUESTIONS} questions")
        wrong = [it for it in asked if it not in ("questions", "session", "version")]
        if wrong:
            raise ValueError("beside questions a request has a session or a version")
        held = {it.name: it.read(_text(asked[it.name])) for it in HELD if it.name in asked}
        return Several(questions, **held)

    def parts(self, board: Board, person: Person) -> Iterator[bytes]:
        """The answers, as each question would have it alone. One with a fault has this in its place."""
        with board.lent(self.session, self.version, person) as session:
            yield b'{"version": %d, "answers": [' % session.version
            for at, it in enumerate(self.questions):
                yield (b", " if at else b"") + _answer(session, it)
            yield b"]}\n"


def _answer(session: "Session[Any, Any]", asked: Mapping[str, Any]) -> bytes:
    try:
        question, given = _read(asked)
        return b"".join(question.answer(session, given)).rstrip()
    except (StoreError, Denied, ValueError, TypeError) as fault:
        status, word = status_and_word(fault)
        return json.dumps({**wire.fault(word, told_of(fault, word)), "status": status}).encode("ascii")


def _read(asked: Mapping[str, Any]) -> "tuple[ServedQuestion, Dict[str, Any]]":
    name = asked.get("question")
    if not isinstance(name, str) or name not in _BY_NAME:
        raise ValueError(f"a question is one of {', '.join(_BY_NAME)}")
    question = _BY_NAME[name]
    pairs = [(key, _text(value)) for key, value in asked.items() if key != "question"]
    return question, question.given(pairs, ())


def _text(value: Any) -> str:
    """What an address would have for a value."""
    if isinstance(value, str):
        return value
    if type(value) in (int, float):
        return text_of(value)
    raise ValueError("a question is asked with texts and numbers")
