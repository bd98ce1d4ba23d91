"""Three devices and their tenants, who ask random things, while Redis, connectors and services are killed by force."""
import random
import signal
import threading
import time
from typing import Dict, List, NamedTuple

from judge import Tenant, logged_otherwise, missed, told_otherwise_than_batch, told_otherwise_than_logs, without_comments
from random_requests import requests, said_by_operator
from room import Programs, Room, check

UNDER_WAY = 8      # requests that a tenant has under way at most
KINDS = ["redis", "connector", "service"]
PAUSED = 3.0       # seconds for which a connector with workers is stopped, longer than its lease
PATIENCE = 15      # seconds, the longest wait for progress between two kills


class Plan(NamedTuple):
    """How large a trial is."""
    names: int
    count: int            # requests of each name
    kills: int            # of each kind, spread over the requests
    workers: bool
    limit: float = 120    # seconds for what is left after the last kill
    tables: int = 9       # of a circuit at most; with workers more, so that jobs take a while


class Trial:
    def __init__(self, room: Room, plan: Plan) -> None:
        self.room, self.plan = room, plan
        self.replicas = ["d0a", "d0b", "d1a", "d1b", "d2a", "d2b"] if plan.workers else ["d0a", "d0b", "d1a", "d2a"]
        self.kills: Dict[str, int] = dict.fromkeys(KINDS + ["pause"] * plan.workers, 0)
        self.tenants: List[Tenant] = []
        self.stopped = False

    def begin(self) -> None:
        self.room.keep("redis", *self.replicas)
        for device in ("d0", "d1", "d2"):
            self.room.route("device", device, "64")
        for k in range(self.plan.names):
            name, device, *_ = self.room.route("admit", f"t{k}", "4").split()
            self.tenants.append(Tenant(name, device))
        self.tenants += [Tenant("op:" + device, device) for device in ("d0", "d1", "d2")]

    def speak(self, tenant: Tenant, seed: int) -> None:
        """Says random things for a name, and hears the replies."""
        draw, at, client = random.Random(seed), {}, self.room.client(tenant.name, None if tenant.is_operator() else 1)
        todo = requests(draw, self.plan.count, self.plan.tables)
        if tenant.is_operator():
            todo = said_by_operator(draw, self.plan.count)
        while (todo or not tenant.is_done()) and not self.stopped:
            while todo and len(tenant.sent) - len(tenant.heard) < UNDER_WAY:
                request = todo.pop(0)
                entry_id = client.put(request.text)
                tenant.sent[entry_id], at[entry_id] = request, time.monotonic()
            got = client.replies(500)
            tenant.heard += got
            for entry_id, _ in got:
                tenant.slowest = max(tenant.slowest, time.monotonic() - at.get(entry_id, time.monotonic()))

    def kill(self, draw: random.Random) -> None:
        kind = draw.choice([kind for kind in self.kills if self.kills[kind] < self.plan.kills])
        what = "redis" if kind == "redis" else draw.choice(self.replicas)
        act = {"service": self.room.kill_service, "pause": self.pause}.get(kind, self.room.kill)
        self.kills[kind] += self.room.is_running(what) and act(what)

    def pause(self, what: str) -> bool:
        """Stops a connector, and lets it go on when another one leads."""
        process = self.room.running[what]
        process.send_signal(signal.SIGSTOP)
        threading.Timer(PAUSED, lambda: process.poll() is None and process.send_signal(signal.SIGCONT)).start()
        return True

    def wait_for_progress(self) -> None:
        """Waits until the part of the requests is answered that there is of kills, or for some seconds."""
        part = (sum(self.kills.values()) + 1) / (self.plan.kills * len(self.kills) + 1)
        goal, end = part * self.plan.count * len(self.tenants), time.monotonic() + PATIENCE
        while sum(len(tenant.heard) for tenant in self.tenants) < goal and time.monotonic() < end:
            time.sleep(0.01)

    def run(self) -> None:
        threads = [threading.Thread(target=self.speak, args=(tenant, k), daemon=True) for k, tenant in enumerate(self.tenants)]
        for thread in threads:
            thread.start()
        draw = random.Random(99)
        while any(count < self.plan.kills for count in self.kills.values()):
            self.wait_for_progress()
            time.sleep(draw.random() * 0.1)
            self.kill(draw)
        end = time.monotonic() + self.plan.limit
        for thread in threads:
            thread.join(max(0, end - time.monotonic()))
        self.stopped = True

    def faults(self) -> List[str]:
        logs = self.logs()
        found = told_otherwise_than_logs(self.room, self.tenants, logs)
        for tenant in self.tenants:
            found += missed(tenant) + logged_otherwise(tenant, logs[tenant.device])
            if not self.plan.workers and not tenant.is_operator():
                found += told_otherwise_than_batch(self.room.programs, tenant)
        return found

    def logs(self) -> Dict[str, bytes]:
        """The log of each device. Those of two replicas are the same, and with workers the stream's is a beginning of the leader's."""
        self.room.kept = []
        if self.plan.workers:
            return {device: b"".join(fields[b"text"] for _, fields in self.room.root.xrange("log:" + device)) for device in ("d0", "d1", "d2")}
        return {device: self.room.log_of(device + "a") for device in ("d0", "d1", "d2")}

    def replicas_differ(self) -> List[str]:
        if self.plan.workers:
            return []
        first, second = (without_comments(self.room.log_of(what)) for what in ("d0a", "d0b"))
        return [] if first == second else ["the logs of d0a and d0b differ"]


def settle(trial: Trial) -> None:
    """Both replicas of d0 serve all, one perhaps later than the other."""
    if not trial.plan.workers:
        same = lambda: not trial.replicas_differ()
        try:
            trial.room.wait_for(same, "the logs of two replicas are the same", 10)
        except Exception:
            pass    # told by the judge


def run(programs: Programs, plan: Plan, fleet: str = "") -> List[str]:
    """Runs a trial. Prints its figures, and returns its faults."""
    options = ("--workers", "2") if plan.workers else ()
    with Room(programs, options, *([fleet] if fleet else [])) as room:
        trial = Trial(room, plan)
        trial.begin()
        begun = time.monotonic()
        trial.run()
        took = time.monotonic() - begun
        settle(trial)
        found = trial.replicas_differ() + trial.faults()
        sent, heard = (sum(len(getattr(tenant, what)) for tenant in trial.tenants) for what in ("sent", "heard"))
        said = [line for what in trial.replicas for line in room.said(what) if "otherwise" in line or "gone" in line or "ends before" in line]
        print(f"  {sent} requests of {plan.names} names, {heard} replies, {sum(trial.kills.values())} kills in {took:.0f} s; "
              f"the slowest reply after {max(tenant.slowest for tenant in trial.tenants):.1f} s; {len(found)} faults")
        return found + said[:3]
