"""A replica without workers. Its replies follow from the stream alone, so replicas of one device need no leader: each
serves all and tells all, and who is first wins. A replica that answers otherwise is noticed, and ends."""
from typing import Dict, List, Tuple

from engine import Engine, number_of
from entries import Entry, Reply, Served
from service import Ended, Folder, Service, say, together

BATCH = 256          # the most requests of a name, or entries, that go on at once
WAIT = 1000          # milliseconds, the longest wait for something to do; a new name is noticed within it
ANY_SIZE = 1 << 40


class Replica:
    def __init__(self, engine: Engine, folder: str, command: List[str]) -> None:
        self.engine, self.folder, self.command = engine, Folder(folder), command
        self.waiting: Dict[int, Entry] = {}    # what the service was given, and has not answered

    def run(self) -> None:
        served = self.folder.served()
        if self.engine.last_entry() < served.newest():
            raise Ended(f"{self.engine.stream} ends before the log, which is at {served.newest()}")
        self.served, self.service = served, self.begin(served)
        say("service", self.service.process.pid, "goes on at", served.missing())
        together(self.tell, self.order, self.feed)

    # At a start

    def untold(self, served: Served) -> List[Entry]:
        """What the log has, and was perhaps not told. Replies are told in the stream's order, so it is the log's end."""
        found, before = [], served.newest()
        while before > served.floor:
            some = self.engine.entries_back(before, BATCH)
            found += [entry for entry in some if entry.number in served.whole]
            ends = {entry.name: self.engine.last_told(entry.name) for entry in some}
            if not some or any(entry.id and number_of(entry.id) <= ends[entry.name] for entry in some):
                break
            before = some[-1].number - 1
        return found

    def begin(self, served: Served) -> Service:
        """Starts the service. It writes again the replies to what is in the log and was perhaps not told, or is there in part."""
        self.waiting = {entry.number: entry for entry in self.untold(served)}
        begun = [served.first[number] for number in [*self.waiting, *served.open.values()]]
        told = min(begun, default=served.lines + 1) - 1
        return Service(self.command + ["--log", self.folder.log, "--told", str(told)])

    # While it serves

    def order(self) -> None:
        """Brings what the names ask into one order. Any replica may do it, and all of them at once."""
        while True:
            some = self.engine.asked(self.engine.names() + [self.engine.operator], WAIT)
            if some:
                self.engine.order(some, BATCH, ANY_SIZE)

    def feed(self) -> None:
        """Hands the stream's entries over, each once and in order."""
        last = self.served.missing() - 1
        while True:
            lines = []
            for entry in self.engine.entries(last, BATCH, WAIT):
                if entry.number != last + 1:
                    raise Ended(f"{self.engine.stream}: {last + 1} is gone: start from the log of another replica")
                last += 1
                self.waiting[last] = entry
                lines += self.served.rest_of(entry)
            self.service.say(lines)

    def tell(self) -> None:
        while (replies := self.service.read()) is not None:
            self.publish([(self.waiting.pop(reply.number), reply) for reply in replies if reply.number in self.waiting])
        raise self.service.ended()

    def publish(self, replies: List[Tuple[Entry, Reply]]) -> None:
        if replies and (number := self.engine.tell(replies)):
            raise Ended(f"{self.engine.stream}: entry {number} was answered otherwise by another replica")
