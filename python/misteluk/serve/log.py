"""What a server logs: a line for each request that was refused, each post, each hold and each fault, as text or JSON.

A line has the call's name, and neither a token, nor what a question was asked with; one of JSON has no place of this machine.
"""
from __future__ import annotations

import json
import logging
import re
import sys
from datetime import datetime, timezone
from typing import Any, Dict, Optional

PACKAGE = logging.getLogger("misteluk")
LOG = logging.getLogger("misteluk.serve")
# The level of what is told also where no log is wanted.
STATED = logging.INFO + 5
# How many characters are told of what ended a feed.
MOST_REASON = 2_000


def note(event: str, **fields: Any) -> None:
    """Logs what happened, where that is wanted."""
    if LOG.isEnabledFor(logging.INFO):
        LOG.info(event, extra={"fields": fields})


def state(event: str, text: str, **fields: Any) -> None:
    """Logs how the server is, which a log of text has in these words."""
    LOG.log(STATED, event, extra={"fields": fields, "words": text})


def fault(text: str, caught: Optional[BaseException] = None, reason: Optional[str] = None) -> None:
    """Logs a fault of the server, of its feed or of its save: `reason` without places of this machine, and of an error that
    nobody meant (`caught`) what led to it."""
    LOG.error(text, exc_info=caught, extra={"reason": reason})


def without_paths(text: str, name: str = "", told: str = "the feed") -> str:
    """What is told of a feed or file of this name, as a client may know it: without places of this machine."""
    if name:
        text = re.sub(rf"{re.escape(name)}:(\d+)", r"line \1", text).replace(name, told)
    text = re.sub(r"(?<![\w.,;/])(?:~|\.{1,2})?/[^\s:'\",;]+", "..", text)
    return text if len(text) <= MOST_REASON else f"{text[:MOST_REASON]} .."


class AsText(logging.Formatter):
    """A line that begins as the command's others."""

    def format(self, record: logging.LogRecord) -> str:
        words = getattr(record, "words", None)
        fields = "" if words else "".join(f" {name}={value}" for name, value in _fields(record).items())
        trace = f"\n{self.formatException(record.exc_info)}" if record.exc_info else ""
        return f"misteluk: {words or record.getMessage()}{fields}{trace}"


class AsJson(logging.Formatter):
    """A line of JSON. Of a fault it has its kind, and the modules and lines that led to it."""

    def format(self, record: logging.LogRecord) -> str:
        when = datetime.fromtimestamp(record.created, timezone.utc).isoformat(timespec="milliseconds")
        is_fault = record.levelno >= logging.WARNING
        told = {"event": "fault", "reason": getattr(record, "reason", None) or without_paths(record.getMessage())}
        return json.dumps({"time": when, "level": record.levelname.lower() if is_fault else "info",
                           **(told if is_fault else {"event": record.getMessage()}), **_fields(record), **_caught(record)})


def _fields(record: logging.LogRecord) -> Dict[str, Any]:
    found: Dict[str, Any] = getattr(record, "fields", {})
    return found


def _caught(record: logging.LogRecord) -> Dict[str, Any]:
    kind, _, trace = record.exc_info or (None, None, None)
    at = []
    while trace is not None:
        at.append(f"{trace.tb_frame.f_globals.get('__name__', '')}:{trace.tb_lineno}")
        trace = trace.tb_next
    return {} if kind is None else {"error": kind.__name__, "at": at}


class _ToError(logging.Handler):
    """Writes to what is the standard error then; one that can't be written ends nothing."""

    def emit(self, record: logging.LogRecord) -> None:
        try:
            sys.stderr.write(f"{self.format(record)}\n")
            sys.stderr.flush()
        except (OSError, ValueError):
            pass


class written:
    """Has the log written while this is open: as text or JSON, or of text without what is only noted."""

    def __init__(self, form: Optional[str]) -> None:
        self._form, self._handler = form, _ToError()

    def __enter__(self) -> None:
        self._handler.setFormatter(AsJson() if self._form == "json" else AsText())
        self._before = PACKAGE.level
        PACKAGE.addHandler(self._handler)
        PACKAGE.setLevel(STATED if self._form is None else logging.INFO)

    def __exit__(self, *_: object) -> None:
        PACKAGE.removeHandler(self._handler)
        PACKAGE.setLevel(self._before)
