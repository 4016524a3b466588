"""Processes of Python's that begin at once: each is forked from this one, which has loaded already what they need."""
from __future__ import annotations

import atexit
import gc
import os
import runpy
import signal
import stat
import subprocess
import sys
import threading
import traceback
from typing import Any, Callable, Dict, List, NoReturn, Optional


class Python(subprocess.Popen):  # type: ignore[type-arg]
    """The process of `python3` and some words, which `subprocess.Popen` would give too: `-m` and a module, `-c` and a program, or
    a file, with what is said to it.

    It is forked where this process can be. A new Python is begun where this one has other threads, or a file that is open: of its
    locks a fork believes that they are its own; and where that is to load or keep what this one doesn't."""

    def __init__(self, words: "List[Any]", *, env: Optional[Dict[str, str]] = None,
                 preexec_fn: Optional[Callable[[], object]] = None, **how: Any) -> None:
        told, env = [str(it) for it in words], {**os.environ} if env is None else env

        def become() -> None:
            if preexec_fn:
                preexec_fn()
            run(told, env)
        before = become if can_fork() and "LD_PRELOAD" not in env and not how.get("pass_fds") else preexec_fn
        super().__init__([sys.executable, *told], env=env, preexec_fn=before, **how)


def can_fork() -> bool:
    """Whether this process has one thread, and no file but those that it began with."""
    if len(os.listdir("/proc/self/task")) > 1:
        return False
    for it in map(int, os.listdir("/proc/self/fd")):
        try:
            if it > 2 and stat.S_ISREG(os.fstat(it).st_mode):
                return False
        except OSError:  # (that of the folder itself)
            pass
    return True


def run(words: "List[str]", env: "Dict[str, str]") -> NoReturn:
    """Is the new Python, from its begin to its end."""
    gc.freeze()  # (what was open there is closed here, and nothing may close it once more)
    os.closerange(3, 1 << 16)
    os.environ.clear()
    os.environ.update(env)
    atexit._clear()
    for number in signal.valid_signals() - {signal.SIGKILL, signal.SIGSTOP, signal.SIGPIPE}:
        if signal.getsignal(number) not in (signal.SIG_IGN, signal.SIG_DFL):
            signal.signal(number, signal.default_int_handler if number == signal.SIGINT else signal.SIG_DFL)
    sys.stdin, sys.stdout, sys.stderr = open(0), open(1, "w"), open(2, "w", buffering=1, errors="backslashreplace")
    status = status_of(words)
    for it in threading.enumerate():
        if it is not threading.current_thread() and not it.daemon:
            it.join()
    atexit._run_exitfuncs()
    sys.stdout.flush()
    sys.stderr.flush()
    if status < 0:
        signal.signal(-status, signal.SIG_DFL)
        os.kill(os.getpid(), -status)
    os._exit(status)


def status_of(words: "List[str]") -> int:
    """Runs what the words say as Python's program, and gives the status that it ends in: by an interrupt that of its signal."""
    try:
        if words[0] == "-m":
            sys.argv = words[1:]
            runpy.run_module(words[1], run_name="__main__", alter_sys=True)
        elif words[0] == "-c":
            sys.argv = ["-c", *words[2:]]
            exec(compile(words[1], "<string>", "exec"), {"__name__": "__main__"})
        else:
            sys.argv = words
            runpy.run_path(words[0], run_name="__main__")
    except SystemExit as end:
        if isinstance(end.code, str):
            print(end.code, file=sys.stderr)
        return end.code if isinstance(end.code, int) else int(end.code is not None)
    except KeyboardInterrupt:
        traceback.print_exc()
        return -signal.SIGINT
    except BaseException:
        traceback.print_exc()
        return 1
    return 0
