"""Was anything lost, doubled or wrong? This reads logs and replies by itself, without the fleet's own code."""
import collections
import re
import subprocess
import time
from typing import Dict, List

from random_requests import Request, script_of
from room import SIZE, Programs, Room, check

REFUSAL = b"fleet: not one command\n"


# What a service without workers answers to the line of a worker's step; the worker's service does not.
STEP = re.compile(rb"(?m)^op lines 1\nop (?:advanced|finished|stale|gone|full|nomemory|none)\n")


class Tenant:
    """What a name, or the operator of a device, asked and was told."""

    def __init__(self, name: str, device: str) -> None:
        self.name, self.device = name, device
        self.sent: Dict[str, Request] = {}                  # by id, in order
        self.heard: List = []                               # ids with replies, as they came
        self.slowest = 0.0

    def is_operator(self) -> bool:
        return self.name.startswith("op:")

    def is_done(self) -> bool:
        return len(self.heard) >= len(self.sent)


def by_tag(output: bytes) -> Dict[bytes, bytes]:
    """The replies of an output of the service by their tags, the operator's by `op` and number. Those without an end are left out."""
    coming, whole, operator = collections.defaultdict(list), {}, b"op/-"
    for line in STEP.sub(b"", output).split(b"\n"):
        tag, _, says = line.partition(b" ")
        if tag == b"done":
            whole[says] = b"".join(coming.pop(says, []))
        elif b"/" in tag:
            coming[tag].append(says + b"\n")
        elif says.startswith(b"begin "):
            operator = b"op/" + says[6:]
        elif says.startswith(b"done "):
            whole[b"op/" + says[5:]] = b"".join(coming.pop(b"op/" + says[5:], []))
        else:
            coming[operator].append(b"?\n" if tag == b"?" else says + b"\n")
    return whole


def missed(tenant: Tenant) -> List[str]:
    """Requests that have no reply, replies that come twice or for nothing, and a wrong order."""
    ids, found = [entry_id for entry_id, _ in tenant.heard], []
    if set(tenant.sent) - set(ids):
        found.append(f"{tenant.name}: {len(set(tenant.sent) - set(ids))} replies lost")
    if len(ids) != len(set(ids)) or set(ids) - set(tenant.sent):
        found.append(f"{tenant.name}: replies doubled, or to nothing")
    if not found and ids != list(tenant.sent):
        found.append(f"{tenant.name}: replies in another order")
    return found


def lines_in(log: bytes, tenant: Tenant) -> bytes:
    """What the log says that the name, or the operator, has said."""
    if tenant.is_operator():
        found = re.findall(rb"(?m)^op echo begin ([0-9]+)\n((?:.*\n)*?)op echo done \1$", log)
        lines = [line for _, part in found for line in part.splitlines(keepends=True)]
        return b"".join(line for line in lines if line.startswith((b"op ", b"? op ")) and not re.fullmatch(rb"op step t\d+ 1\n", line))
    return b"".join(re.findall(rb"(?m)^@%s/[0-9]+ (.*\n)" % tenant.name.encode(), log))


def logged_otherwise(tenant: Tenant, log: bytes) -> List[str]:
    """Whether the log has each request of the name once and in order."""
    head = b"op " if tenant.is_operator() else b""
    wanted = b"".join(head + request.text.removesuffix(b"\n") + b"\n" for request in tenant.sent.values() if not request.is_refused)
    said, logged = wanted.split(b"\n"), lines_in(log, tenant).split(b"\n")
    if tenant.is_operator():
        logged = logged[-len(said):]    # the router has asked before
    # With workers a `wait` that its name ends is in the log as it is served, as `status`.
    agrees = len(said) == len(logged) and all(one == other or (one, other) == (b"wait", b"status") for one, other in zip(said, logged))
    return [] if agrees else [f"{tenant.name}: not each request is once and in order in the log"]


def served_again(room: Room, logs: Dict[str, bytes]) -> Dict[str, Dict[bytes, bytes]]:
    """The replies that a service without workers gives to the log of each device, by device and tag."""
    begun, replies, steps = time.monotonic(), {}, 0
    for device, log in logs.items():
        ran = subprocess.run([room.programs.live, *SIZE], input=log, capture_output=True)
        check(ran.returncode == 0, f"the log of {device} is served with status {ran.returncode}: {ran.stderr[:200]!r}")
        replies[device], steps = by_tag(ran.stdout), steps + len(STEP.findall(ran.stdout))
    lines = sum(log.count(b"\n") for log in logs.values())
    print(f"  {len(logs)} logs of {lines} lines, {steps} of them steps of workers, are served again in {time.monotonic() - begun:.1f} s")
    return replies


def told_otherwise_than_logs(room: Room, tenants: List[Tenant], logs: Dict[str, bytes]) -> List[str]:
    """Whether each reply is that which a service without workers gives to the log of the device that had the request."""
    found, wanted = [], {}
    for device, replies in served_again(room, logs).items():
        for key, fields in room.root.xrange("req:" + device):
            tag = b"op" if fields[b"name"].startswith(b"op:") else b"@" + fields[b"name"]
            wanted[fields[b"name"].decode(), fields[b"id"].decode()] = replies.get(tag + b"/" + key.split(b"-")[0])
    for tenant in tenants:
        for entry_id, told in tenant.heard:
            is_refused = entry_id in tenant.sent and tenant.sent[entry_id].is_refused
            reply = REFUSAL if is_refused else wanted.get((tenant.name, entry_id))
            if told != reply:
                found.append(f"{tenant.name}: {entry_id} was told {told[:60]!r}, and by the log it is {(reply or b'nothing')[:60]!r}")
                break
    return found


def told_otherwise_than_batch(programs: Programs, tenant: Tenant) -> List[str]:
    """Whether the replies are those of `fpgad` to a script that says the same."""
    said = list(tenant.sent.values())
    ran = subprocess.run([programs.batch, *SIZE], input=script_of(tenant.name, said), capture_output=True)
    wanted = ran.stdout.partition(b"== %s\n" % tenant.name.encode())[2]
    told = b"".join(reply for entry_id, reply in tenant.heard if entry_id in tenant.sent and not tenant.sent[entry_id].is_refused)
    wrong = any((reply == REFUSAL) != tenant.sent[entry_id].is_refused for entry_id, reply in tenant.heard if entry_id in tenant.sent)
    if ran.returncode == 0 and wanted == told and not wrong:
        return []
    return [f"{tenant.name}: {len(told)} bytes of replies differ from the {len(wanted)} of fpgad"]


def without_comments(log: bytes) -> bytes:
    return re.sub(rb"(?m)^#.*\n", b"", log)
