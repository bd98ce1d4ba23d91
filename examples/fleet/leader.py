"""A replica with workers. What a service with workers serves, and in which order, is decided while it runs, so one replica
leads, and the others follow its log. It goes to a stream, together with the replies that rest on it, in one step: so the
stream's log has no line that was not answered, and nothing was answered that is not in it. Whoever leads next goes on at its end."""
import collections
import hashlib
import os
import re
import threading
import time
import uuid
from typing import BinaryIO, Deque, Dict, List, Optional, Set, Tuple

from engine import START, Engine, Place
from entries import MARK, TAGGED, Entry, Reply, Served, is_refused
from service import Ended, Folder, Service, say, together

LEASE = 2000         # milliseconds after which another replica leads, if the leader is not there
BATCH = 256          # entries in one read
AHEAD = 64           # the most requests of a name that the service has at once, and that wait here
SIZE = 1500000       # the most bytes of them, if they are several: less than what may wait of a name in the service


class Flow:
    """What the service has of each name, and what waits here for its turn. So no command is lost there."""

    def __init__(self) -> None:
        self.waiting: Dict[bytes, Deque[Entry]] = collections.defaultdict(collections.deque)
        self.there: Dict[bytes, Dict[int, Entry]] = collections.defaultdict(dict)    # in order of numbers
        self.names: Dict[int, bytes] = {}                                            # of those that are there
        self.lock = threading.Lock()

    def add(self, entry: Entry) -> None:
        with self.lock:
            self.waiting[entry.name].append(entry)

    def has_room(self, name: bytes) -> bool:
        return len(self.waiting.get(name, ())) < AHEAD

    def is_waiting(self) -> bool:
        return any(self.waiting.values())

    def ready(self) -> List[Entry]:
        """What may be handed over now, each name's in its order."""
        with self.lock:
            return sorted(entry for name in self.waiting for entry in self.ready_of(name))

    def ready_of(self, name: bytes) -> List[Entry]:
        found, there, waiting = [], self.there[name], self.waiting[name]
        size = sum(len(entry.text) for entry in there.values())
        while waiting and (not there or len(there) < AHEAD and size + len(waiting[0].text) <= SIZE):
            if there and is_refused(waiting[0]):
                break    # its reply would overtake one that the name waits for
            entry = waiting.popleft()
            there[entry.number], self.names[entry.number] = entry, name
            size += len(entry.text)
            found.append(entry)
        return found

    def answered(self, reply: Reply) -> Optional[Entry]:
        """The entry that a reply answers: by its number, or the oldest one of its name."""
        with self.lock:
            number = reply.number
            if number is None:
                number = next(iter(self.there[reply.name]), None)
            name = self.names.pop(number, None)
            return self.there[name].pop(number) if name is not None else None


class Log:
    """The leader's log, from the place up to which the stream has it."""

    def __init__(self, path: str, place: Place) -> None:
        self.file, self.place, self.rest, self.pending = open(path, "rb"), place, b"", []
        self.sum = hashlib.sha256(self.file.read(place.size))

    def read(self) -> None:
        lines = (self.rest + self.file.read()).split(b"\n")
        self.rest = lines.pop()
        self.pending += lines

    def answered(self, numbers: Set[int]) -> bytes:
        """The lines up to the last one of entries that were answered, and those after it that have no reply. Replies come
        in the order of the log. But never a part of an operator's request: his reply is whole with the mark after it."""
        reach = count = 0
        is_open = False
        for at, line in enumerate(self.pending, 1):
            found = entry_in(line)
            is_open = line.startswith(b"op echo begin ") or is_open and not line.startswith(b"op echo done ")
            if found in numbers or found is None and reach == at - 1:
                reach = at
                count = count if is_open else at
        piece = b"".join(line + b"\n" for line in self.pending[:count])
        del self.pending[:count]
        return piece

    def has(self, number: int) -> bool:
        """Whether a line of an entry is still to be brought into the stream."""
        return any(entry_in(line) == number for line in self.pending)

    def place_after(self, piece: bytes) -> Place:
        self.sum.update(piece)
        return Place(self.place.size + len(piece), self.sum.hexdigest()[:32])


def entry_in(line: bytes) -> Optional[int]:
    """The number of the entry that a line of a log names."""
    found = TAGGED.fullmatch(line) or MARK.fullmatch(line)
    return int(found[2]) if found else None


def agreed(path: str, engine: Engine) -> Place:
    """The place up to which a replica's log is the stream's. What it has after that was told to nobody."""
    with open(path, "rb") as log:
        data = log.read()
    if engine.log_end() == START:    # nobody has led: all is new but a log that was made shorter
        mark = list(re.finditer(rb"(?m)^op echo all \d+\n", data))
        return Place(mark[-1].end(), sum_of(data[:mark[-1].end()])) if mark else START
    for place in engine.places_back():
        if place.size <= len(data) and place.sum == sum_of(data[:place.size]):
            return place
    return START


def sum_of(data: bytes) -> str:
    return hashlib.sha256(data).hexdigest()[:32]


class Leader:
    def __init__(self, engine: Engine, folder: str, command: List[str]) -> None:
        self.engine, self.folder, self.command = engine, Folder(folder), command
        self.who, self.flow = uuid.uuid4().hex, Flow()

    def run(self) -> None:
        self.follow()
        self.begin()
        together(self.tell, self.feed, self.stay)

    # While another one leads

    def follow(self) -> None:
        """Keeps the leader's log, until there is no leader and this one is it."""
        if self.engine.last_entry() < self.folder.served().newest():
            raise Ended(f"{self.engine.stream} ends before the log: it is not the stream that this log comes from")
        self.place = agreed(self.folder.log, self.engine)
        say("follows from byte", self.place.size)
        with open(self.folder.log, "r+b") as log:
            log.truncate(self.place.size)
            self.served = Served(log)
            while not self.engine.lead(self.who, LEASE):
                self.keep(log, LEASE // 8)
            while self.keep(log, 1):
                pass

    def keep(self, log: BinaryIO, milliseconds: int) -> bool:
        """Keeps what the stream has next, if it comes within some milliseconds."""
        pieces = self.engine.pieces(self.place.size, milliseconds)
        for self.place, piece in pieces:
            log.write(piece)
            for line in piece.split(b"\n")[:-1]:
                self.served.note(line)
        if pieces:
            log.flush()
            os.fsync(log.fileno())
        return bool(pieces)

    # While it leads

    def begin(self) -> None:
        if self.place != START and self.engine.log_end() == START:    # a log that was made shorter is the stream's first piece
            with open(self.folder.log, "rb") as log:
                self.engine.append(START, self.place, log.read(self.place.size), [])
        self.log = Log(self.folder.log, self.place)
        self.service = Service(self.command + ["--log", self.folder.log])
        say("leads from byte", self.place.size, "by service", self.service.process.pid, "and goes on at", self.served.missing())

    def feed(self) -> None:
        """Brings what is asked into one order, and hands it over, each name's as far as the service has room for it."""
        last = self.served.missing() - 1
        while True:
            names = [name for name in self.engine.names() if self.flow.has_room(name)]
            some = self.engine.asked(names + [self.engine.operator], 20 if self.flow.is_waiting() else LEASE // 8)
            if some:
                self.engine.order(some, AHEAD, SIZE)
            for entry in self.engine.entries(last, BATCH, 1):
                if entry.number != last + 1:
                    raise Ended(f"{self.engine.stream}: {last + 1} is gone: start from the log of another replica")
                last += 1
                if self.served.rest_of(entry):
                    self.flow.add(entry)
            self.service.say([line for entry in self.flow.ready() for line in self.served.rest_of(entry)])

    def tell(self) -> None:
        """Brings the log into the stream, and tells the replies that rest on it."""
        told: List[Tuple[Entry, Reply]] = []
        while (replies := self.service.read(0.2)) is not None:
            self.log.read()
            told += [(entry, reply) for reply in replies if (entry := self.flow.answered(reply))]
            piece = self.log.answered({entry.number for entry, _ in told})
            is_there = [not self.log.has(entry.number) for entry, _ in told]
            now = [one for one, there in zip(told, is_there) if there]
            told = [one for one, there in zip(told, is_there) if not there]
            if piece or now:
                old, self.log.place = self.log.place, self.log.place_after(piece)
                if not self.engine.append(old, self.log.place, piece, now):
                    raise Ended("another replica leads")
        self.engine.leave(self.who)
        raise self.service.ended()

    def stay(self) -> None:
        while self.engine.lead(self.who, LEASE):
            time.sleep(LEASE / 8000)
        raise Ended("another replica leads")
