"""Replicas that are killed, copied, made shorter, and a tenant that moves, while tenants ask; and how long a reply takes meanwhile."""
import os
import random
import shutil
import subprocess
import threading
import time
from typing import Callable, Dict, List, Tuple

from judge import Tenant, logged_otherwise, missed, told_otherwise_than_batch, told_otherwise_than_logs
from random_requests import requests
from room import SIZE, Programs, Room, Wrong, check

NAMES = ["w", "x", "y", "z"]


class Watch:
    """Tenants that ask one request after the other, and what each phase's slowest reply was."""

    def __init__(self, room: Room) -> None:
        self.room, self.phase, self.ended = room, "the start", False
        self.times: Dict[str, List[float]] = {}
        self.tenants = [Tenant(name, room.route("admit", name, "4").split()[1]) for name in NAMES]
        self.threads = [threading.Thread(target=self.speak, args=[tenant], daemon=True) for tenant in self.tenants]

    def speak(self, tenant: Tenant) -> None:
        draw, client = random.Random(tenant.name), self.room.client(tenant.name, 1)
        while not self.ended:
            request, at, phase = requests(draw, 1)[0], time.monotonic(), self.phase
            wanted = client.put(request.text)
            tenant.sent[wanted] = request
            while not tenant.heard or tenant.heard[-1][0] != wanted:
                tenant.heard += client.replies(200)
                if time.monotonic() - at > 60:
                    return
            self.times.setdefault(phase, []).append(time.monotonic() - at)
            time.sleep(0.004)

    def run(self, phases: List[Tuple[str, Callable[[], None], float]]) -> None:
        for thread in self.threads:
            thread.start()
        for title, action, seconds in phases:
            self.phase = title
            time.sleep(0.3)
            action()
            time.sleep(seconds)
        self.ended = True
        for thread in self.threads:
            thread.join(70)

    def report(self) -> None:
        for phase, times in self.times.items():
            times.sort()
            print(f"  {phase:44} {len(times):5} requests, half within {times[len(times) // 2] * 1e3:6.1f} ms, the slowest {times[-1] * 1e3:7.1f} ms")


def nothing() -> None:
    pass


def copy_log(room: Room, old: str, new: str) -> None:
    os.mkdir(room.path(new))
    shutil.copy(os.path.join(room.path(old), "day.log"), room.path(new))
    room.start(new)


def shorten(room: Room, what: str) -> None:
    """Makes the log of a replica shorter that has been killed, once its last replies were told by another one."""
    room.kill(what)
    words = [os.path.join(room.fleet, "shorten"), room.url, what[:-1], room.path(what), room.programs.desk, *SIZE]
    for _ in range(50):
        ran = subprocess.run(words, capture_output=True, text=True)
        if ran.returncode == 0:
            break
        room.start(what)
        time.sleep(0.5)
        room.kill(what)
    check(ran.returncode == 0, f"shorten: {ran.stderr}")
    print("  a shorter log:", ran.stdout.strip())
    room.start(what)


def move_to_new(room: Room, device: str) -> None:
    """Makes a device known, starts it, and moves a tenant there."""
    room.route("device", device, "64")
    room.start(device + "a")
    print("  " + room.route("move", "y", device).split("\n")[0])


def without_workers(programs: Programs) -> List[str]:
    with Room(programs) as room:
        for device in ("d0", "d1"):
            room.route("device", device, "64")
        for what in ("d0a", "d0b", "d1a"):
            room.start(what)
        watch = Watch(room)
        watch.run([
            ("steady", nothing, 1.5),
            ("a replica killed for good", lambda: room.kill("d0a"), 1.5),
            ("a third one from a copy of a running log", lambda: copy_log(room, "d0b", "d0c"), 1.5),
            ("the second one killed too", lambda: room.kill("d0b"), 1.5),
            ("a lone one killed and started again", lambda: (room.kill("d1a"), room.start("d1a")), 1.5),
            ("one with a shorter log", lambda: (room.start("d0b"), time.sleep(1), shorten(room, "d0b")), 1.5),
            ("and it goes on alone", lambda: room.kill("d0c"), 1.5),
            ("a tenant moves to a new device", lambda: move_to_new(room, "d2"), 1)])
        watch.report()
        return [fault for tenant in watch.tenants for fault in missed(tenant) + told_otherwise_than_batch(programs, tenant)]


def leader_of(room: Room, replicas: List[str]) -> str:
    """The replica that said last of all that it leads, if it is running."""
    for what in replicas:
        if room.is_running(what) and room.said(what)[-2].startswith("fleet: leads"):
            return what
    raise Wrong("no replica leads")


def with_workers(programs: Programs, kills: int) -> List[str]:
    """One leads, another one follows. The leader is killed for good, again and again. Then a tenant moves to a new device."""
    with Room(programs, ("--workers", "2")) as room:
        room.route("device", "d0", "64")
        for what in ("d0a", "d0b"):
            room.start(what)
        watch, gaps = Watch(room), []

        def heard() -> int:
            return sum(len(tenant.heard) for tenant in watch.tenants)

        def kill_leader() -> None:
            leader = leader_of(room, ["d0a", "d0b"])
            room.kill(leader)
            time.sleep(0.2)    # what was sent is heard
            at, count = time.monotonic(), heard()
            room.start(leader)
            room.wait_for(lambda: heard() > count, "a reply after the leader was killed")
            gaps.append(time.monotonic() - at + 0.2)

        watch.run([("steady", nothing, 1.5)] + [("the leader killed for good", kill_leader, 1)] * kills
                  + [("a tenant moves to a new device", lambda: move_to_new(room, "d1"), 1)])
        watch.report()
        print(f"  the first reply of the next leader came after {min(gaps):.1f} to {max(gaps):.1f} s, of which 2.0 are the lease")
        logs = {device: b"".join(fields[b"text"] for _, fields in room.root.xrange("log:" + device)) for device in ("d0", "d1")}
        stayed = [tenant for tenant in watch.tenants if tenant.name != "y"]
        found = [fault for tenant in watch.tenants for fault in missed(tenant)] + told_otherwise_than_logs(room, watch.tenants, logs)
        return found + [fault for tenant in stayed for fault in logged_otherwise(tenant, logs["d0"])]
