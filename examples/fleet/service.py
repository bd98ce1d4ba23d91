"""The service: a process `fpgad_live` with a log, its input, its output, and the folder that is its own."""
import ctypes
import fcntl
import os
import select
import signal
import subprocess
import sys
import threading
import traceback
from typing import Any, BinaryIO, Callable, Iterator, List, Optional

from entries import Replies, Reply, Served

DEATH_SIGNAL = 1    # of Linux: the number of prctl's option by which a process ends with the one that started it
PIECE = 1 << 18     # the most bytes of output in one read


class Ended(Exception):
    """Why a replica ends."""


def end_with_parent() -> None:
    ctypes.CDLL(None).prctl(DEATH_SIGNAL, signal.SIGKILL)


class Folder:
    """The folder of one replica: its log, and a lock, so that no two replicas have it."""

    def __init__(self, path: str) -> None:
        os.makedirs(path, exist_ok=True)
        self.log = os.path.join(path, "day.log")
        self.lock = open(os.path.join(path, "lock"), "w")
        fcntl.flock(self.lock, fcntl.LOCK_EX)
        with open(self.log, "ab") as log:    # a service that still uses it ends soon: it was this replica's
            fcntl.flock(log, fcntl.LOCK_EX)

    def served(self) -> Served:
        """What the log has. Its last line, if it has no end, is none."""
        with open(self.log, "rb") as log:
            return Served(line for line in log if line.endswith(b"\n"))


class Service:
    """A running service."""

    def __init__(self, command: List[str], source: Any = subprocess.PIPE) -> None:
        self.process = subprocess.Popen(command, stdin=source, stdout=subprocess.PIPE, preexec_fn=end_with_parent)
        self.replies = Replies()
        self.rest = b""

    def say(self, lines: List[bytes]) -> None:
        if lines:
            self.process.stdin.write(b"\n".join(lines) + b"\n")
            self.process.stdin.flush()

    def read(self, seconds: Optional[float] = None) -> Optional[List[Reply]]:
        """The replies that have come; waits until some output comes, or for some seconds. None at its end."""
        if seconds is not None and not select.select([self.process.stdout], [], [], seconds)[0]:
            return []
        chunk = os.read(self.process.stdout.fileno(), PIECE)
        if not chunk:
            return None
        lines = (self.rest + chunk).split(b"\n")
        self.rest = lines.pop()
        return [reply for reply in map(self.replies.of, lines) if reply is not None]

    def ended(self) -> Ended:
        return Ended(f"the service ended with status {self.process.wait()}")


def together(*jobs: Callable[[], None]) -> None:
    """Runs jobs side by side. When one of them ends, the process ends with all of them."""
    def alone(job: Callable[[], None]) -> None:
        try:
            job()
        except Ended as reason:
            print("fleet:", reason, file=sys.stderr, flush=True)
        except BaseException:
            traceback.print_exc()
        os._exit(1)

    for job in jobs[1:]:
        threading.Thread(target=alone, args=[job], daemon=True).start()
    alone(jobs[0])


def say(*words: Any) -> None:
    print("fleet:", *words, file=sys.stderr, flush=True)
