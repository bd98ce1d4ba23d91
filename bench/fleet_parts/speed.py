"""How fast: `status` through pipes, and through Redis and connectors. One client that waits; one that does not; ten that do not."""
import os
import subprocess
import tempfile
import threading
import time
from typing import Callable, List, Tuple

from room import SIZE, Programs, Room, check

WAITING, MANY, TENANTS = 200, 4000, 10
BIG = ("#" + "x" * 998 + "\n") * 1040 + ".model m\n.inputs a b\n.outputs y\n.names a b y\n11 1\n.end\n.\n"
HEAD = f"  {'':36} {'half, ms':>9} {'99th, ms':>9} {'one, 1/s':>10} {'ten, 1/s':>10} {'1 MiB, ms':>10}"


def timed(call: Callable[[], object]) -> float:
    at = time.perf_counter()
    call()
    return time.perf_counter() - at


def row(title: str, times: List[float], one: float, ten: float, big: List[float]) -> None:
    times.sort()
    half, most = times[len(times) // 2] * 1e3, times[len(times) * 99 // 100] * 1e3
    print(f"  {title:36} {half:9.2f} {most:9.2f} {MANY / one:10.0f} {MANY / ten:10.0f} {sorted(big)[len(big) // 2] * 1e3:10.1f}", flush=True)


def big_text(number: int) -> str:
    return ("change\n" if number else "upload\n") + BIG


class Pipes:
    """A service between pipes."""

    def __init__(self, programs: Programs, options: List[str]) -> None:
        self.process = subprocess.Popen([programs.live, *SIZE, *options], stdin=subprocess.PIPE, stdout=subprocess.PIPE)

    def ask(self, lines: bytes) -> bytes:
        self.process.stdin.write(lines)
        self.process.stdin.flush()
        return self.process.stdout.readline()

    def stream(self, lines: List[bytes]) -> None:
        def write() -> None:
            self.process.stdin.write(b"".join(lines))
            self.process.stdin.flush()

        writer = threading.Thread(target=write)
        writer.start()
        for _ in lines:
            self.process.stdout.readline()
        writer.join()

    def upload(self, number: int) -> None:
        lines = big_text(number).split("\n")[:-1]
        check(self.ask("".join(f"@t1 {line}\n" for line in lines).encode()) == b"@t1 ok Loaded\n", "an upload through pipes")


def pipes(programs: Programs, title: str, options: List[str]) -> None:
    service = Pipes(programs, options)
    for k in range(TENANTS):
        check(service.ask(b"op admit t%d 4\n" % k).startswith(b"op ok"), "an admission through pipes")
    times = [timed(lambda: service.ask(b"@t0 status\n")) for _ in range(WAITING)]
    one = timed(lambda: service.stream([b"@t0 status\n"] * MANY))
    ten = timed(lambda: service.stream([b"@t%d status\n" % (k % TENANTS) for k in range(MANY)]))
    row(title, times, one, ten, [timed(lambda: service.upload(k)) for k in range(3)])
    service.process.stdin.close()
    service.process.wait()


def flow(room: Room, name: str, count: int, window: int = 256) -> None:
    """A client that keeps many requests under way."""
    client = room.client(name)
    sent = heard = 0
    while heard < count:
        if sent < count and sent - heard <= window // 2:
            pipe = client.redis.pipeline(transaction=False)
            for _ in range(min(window // 2, count - sent)):
                pipe.xadd("in:" + name, {"text": "status\n"}, id=f"{client.next}-0")
                client.next += 1
                sent += 1
            pipe.execute()
        heard += len(client.replies(2000))


def ten_flows(room: Room) -> None:
    threads = [threading.Thread(target=flow, args=(room, f"t{k}", MANY // TENANTS)) for k in range(TENANTS)]
    for thread in threads:
        thread.start()
    for thread in threads:
        thread.join()


def fleet(programs: Programs, title: str, fsync: str, replicas: Tuple[str, ...], options: Tuple[str, ...] = ()) -> None:
    with Room(programs, options, fsync=fsync) as room:
        room.route("device", "d0", "64")
        for what in replicas:
            room.start(what)
        for k in range(TENANTS):
            room.route("admit", f"t{k}", "4")
        client = room.client("t0")
        times = [timed(lambda: client.ask("status")) for _ in range(WAITING)]
        one, ten = timed(lambda: flow(room, "t0", MANY)), timed(lambda: ten_flows(room))
        client = room.client("t1")
        big = [timed(lambda: check(client.ask(big_text(k)) == b"ok Loaded\n", "an upload")) for k in range(3)]
        row(title, times, one, ten, big)


def table(programs: Programs) -> None:
    print(HEAD)
    pipes(programs, "pipes", [])
    with tempfile.TemporaryDirectory() as folder:
        pipes(programs, "pipes, with a log", ["--log", os.path.join(folder, "log")])
    fleet(programs, "Redis, flushed each second, 1 replica", "everysec", ("d0a",))
    fleet(programs, "Redis, flushed always, 1 replica", "always", ("d0a",))
    fleet(programs, "Redis, flushed always, 2 replicas", "always", ("d0a", "d0b"))
    fleet(programs, "with 2 workers, 1 leads, 1 follows", "always", ("d0a", "d0b"), ("--workers", "2"))
