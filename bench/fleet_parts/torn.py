"""Large texts, and a connector that is killed while it writes them; and a tenant who moves to and fro, by a router that is killed."""
import random
import re
import subprocess
import threading
import time
from typing import List, Tuple

from failover import NAMES, Watch
from judge import Tenant, missed, told_otherwise_than_batch
from random_requests import Request
from room import FLEET, Programs, Room


SMALL = "upload\n.model m\n.inputs a b\n.outputs y\n.names a b y\n11 1\n.end\n.\n"
ROUND = ["upload", "change", "change", "withdraw\n", SMALL, "pack\n", "wait\n", "net\n", "withdraw\n"]


def said(draw: random.Random, number: int) -> str:
    """A request: most of the bytes are uploads and changes of 0.3 to 0.7 MB."""
    word = ROUND[number % len(ROUND)]
    if word.endswith("\n"):
        return word
    gates = "".join(f".names a b y{k}\n{draw.choice(['11', '10', '0-'])} 1\n" for k in range(draw.randint(13000, 30000)))
    return f"{word}\n.model m\n.inputs a b\n.outputs y0\n# {'x' * 900}\n{gates}.end\n.\n"


def ends_within(log: bytes) -> bool:
    """Whether a log ends within a request."""
    last = log.rpartition(b"\n")[0].rpartition(b"\n")[2]
    return not log.endswith(b"\n") or not re.fullmatch(rb"#.*|op echo (done|refused).*|@x/\d+ (\.|withdraw|pack|wait|net)", last)


class Torn:
    def __init__(self, room: Room, kills: int) -> None:
        self.room, self.kills, self.ended, self.torn = room, kills, False, 0

    def kill(self) -> None:
        draw = random.Random(5)
        for _ in range(self.kills):
            said = len(self.room.said("d0a"))
            self.room.start("d0a")
            self.room.wait_for(lambda: len(self.room.said("d0a")) > said, "a connector says that it has begun")
            time.sleep(draw.random() * 0.25)
            self.room.kill("d0a")
            time.sleep(0.02)    # its service has ended
            self.torn += ends_within(self.room.log_of("d0a"))
        self.room.start("d0a")
        self.ended = True


def texts(programs: Programs, kills: int, fleet: str = FLEET) -> List[str]:
    with Room(programs, (), fleet) as room:
        room.route("device", "d0", "64")
        room.start("d0a")
        tenant, client = Tenant("x", room.route("admit", "x", "4").split()[1]), room.client("x", 1)
        room.kill("d0a")
        torn, draw = Torn(room, kills), random.Random(1)
        thread = threading.Thread(target=torn.kill, daemon=True)
        thread.start()
        end = time.monotonic() + 30 + 3 * kills
        while (not torn.ended or len(tenant.sent) < 6 or not tenant.is_done()) and time.monotonic() < end:
            if len(tenant.sent) - len(tenant.heard) < 2 and not torn.ended:
                text = said(draw, len(tenant.sent))
                tenant.sent[client.put(text)] = Request(text.encode(), False)
            tenant.heard += client.replies(200)
        thread.join(60)
        size = sum(len(request.text) for request in tenant.sent.values())
        print(f"  {len(tenant.sent)} requests, {size} bytes; {kills} kills, {torn.torn} of which left a log that ends within a request")
        return missed(tenant) + told_otherwise_than_batch(programs, tenant)


def moves(programs: Programs, count: int) -> List[str]:
    """A tenant moves to and fro, and the router is killed in between and run again."""
    with Room(programs) as room:
        for device in ("d0", "d1"):
            room.route("device", device, "64")
        for what in ("d0a", "d0b", "d1a"):
            room.start(what)
        watch, draw, killed = Watch(room), random.Random(3), []

        def turn(number: int) -> None:
            words = [f"{FLEET}/router", room.url, "move", "y", f"d{number % 2}"]
            first = subprocess.Popen(words, stdout=subprocess.DEVNULL, stderr=subprocess.DEVNULL)
            time.sleep(0.1 + draw.random() * 0.4)
            killed.append(first.poll() is None)
            first.kill()
            first.wait()
            room.route("move", "y", f"d{number % 2}")

        watch.run([("moves", lambda number=number: turn(number), 0.2) for number in range(count)] + [("after them", lambda: None, 1)])
        watch.report()
        print(f"  {count} moves, in {sum(killed)} of which the router was killed and run again")
        return [fault for tenant in watch.tenants for fault in missed(tenant) + told_otherwise_than_batch(programs, tenant)]
