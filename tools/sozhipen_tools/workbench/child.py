"""Runs workbench.work on a request in a process of its own, within bounds of time and of what it prints."""

from __future__ import annotations

import json
import os
import signal
import subprocess
import threading
from typing import Any

from ..pipes import pipe
from ..places import command_of

ANSWER = 24 << 20


def end(process: subprocess.Popen) -> None:
    """Kills the child and what it started."""
    try:
        os.killpg(process.pid, signal.SIGKILL)
    except ProcessLookupError:
        pass


def messages(data: bytes) -> list[dict]:
    """The whole lines; the last one may be cut off."""
    return [json.loads(line) for line in data.split(b"\n")[:-1]]


def answer(request: dict[str, Any], seconds: int) -> list[dict]:
    """What the child said, and a note where it did not come to its end."""
    process = subprocess.Popen(command_of("workbench.work"), stdin=subprocess.PIPE, stdout=subprocess.PIPE,
                               stderr=subprocess.PIPE, start_new_session=True)
    late = threading.Event()
    errors: list[bytes] = []

    def end_late() -> None:
        late.set()
        end(process)

    timer = threading.Timer(seconds, end_late)
    said = threading.Thread(target=lambda: errors.append(pipe(process.stderr).read(4096)), daemon=True)
    timer.start()
    said.start()
    try:
        pipe(process.stdin).write(json.dumps({**request, "seconds": seconds}).encode())
        pipe(process.stdin).close()
        data = pipe(process.stdout).read(ANSWER)
    except BrokenPipeError:
        data = b""
    finally:
        timer.cancel()
        end(process)
        process.wait()
        said.join(1)
        pipe(process.stdout).close()
        pipe(process.stderr).close()
    found = messages(data)
    if not found or found[-1]["kind"] != "done":
        found.append({"kind": "note", "text": unfinished(late.is_set(), len(data) >= ANSWER, errors, seconds)})
    return found


def unfinished(late: bool, long: bool, errors: list[bytes], seconds: int) -> str:
    if late:
        return f"the run was ended after {seconds} s; what had come by then is shown"
    if long:
        return "the answer is too long to be shown"
    last = b"".join(errors).decode("utf-8", "replace").strip().splitlines()
    return f"the run failed: {last[-1] if last else 'without a word'}"
