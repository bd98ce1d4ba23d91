"""Wrong connectors, each of which a trial has to find."""
import os
import shutil
import tempfile
from typing import List, NamedTuple, Tuple

import trial
from room import FLEET, Programs, Wrong, check
from trial import Plan

SHORT = Plan(names=6, count=300, kills=6, workers=False, limit=8)
BUSY = Plan(names=6, count=600, kills=10, workers=False, limit=15)
LED = Plan(names=6, count=150, kills=5, workers=True, limit=20, tables=60)
HELD = Plan(names=6, count=150, kills=1, workers=True, limit=15, tables=100)


class Plant(NamedTuple):
    """What is wrong, in which file, by which changes, and in which trial it shows."""
    name: str
    file: str
    changes: List[Tuple[str, str]]
    plan: Plan = SHORT


GO_ON = "last = self.served.missing() - 1\n"
PLANTS = [
    Plant("an entry is skipped after a restart", "replica.py", [(GO_ON, "last = self.served.missing() - (self.served.lines == 0)\n")]),
    Plant("an entry is served twice after a restart", "replica.py", [
        (GO_ON, "last = max(0, self.served.missing() - 2)\n"),
        ("lines += self.served.rest_of(entry)", "lines += lines_of(entry)"),
        ("from entries import Entry,", "from entries import lines_of, Entry,")]),
    Plant("it goes on from the end of the stream", "replica.py", [(GO_ON, "last = self.engine.last_entry()\n")]),
    Plant("replies that were lost are not told again", "replica.py", [("for entry in self.untold(served)}", "for entry in []}")], BUSY),
    Plant("with workers, replies are told before the log is in the stream", "leader.py", [
        ("not self.engine.append(old, self.log.place, piece, now)",
         "not (self.engine.append(old, old, b'', now) and not time.sleep(0.1) and self.engine.append(old, self.log.place, piece, []))")], LED),
    Plant("with workers, a refusal comes before a reply that its name waits for", "leader.py", [
        ("if there and is_refused(waiting[0]):", "if False:")], HELD),
    Plant("with workers, a leader that was replaced keeps its log", "leader.py", [("log.truncate(self.place.size)", "log.seek(0, 2)")], LED),
]


def planted(plant: Plant, folder: str) -> str:
    """A copy of the fleet with a wrong connector."""
    copy = os.path.join(folder, "fleet")
    shutil.copytree(FLEET, copy)
    path = os.path.join(copy, plant.file)
    with open(path, encoding="utf-8") as file:
        text = file.read()
    for old, new in plant.changes:
        check(text.count(old) == 1, f"{plant.file} has {old!r} {text.count(old)} times")
        text = text.replace(old, new)
    with open(path, "w", encoding="utf-8") as file:
        file.write(text)
    return copy


def faults_of(programs: Programs, plant: Plant) -> List[str]:
    with tempfile.TemporaryDirectory() as folder:
        fleet = planted(plant, folder)
        try:
            return trial.run(programs, plant.plan, fleet)
        except Wrong as wrong:
            return [str(wrong)]


def run(programs: Programs) -> List[str]:
    found = []
    for plant in PLANTS:
        faults = faults_of(programs, plant)
        print(f"  {plant.name}: {'found, ' + faults[0][:110] if faults else 'NOT FOUND'}", flush=True)
        found += [] if faults else [f"not found: {plant.name}"]
    return found
