#!/usr/bin/python3
"""client.py REDIS NAME: says the commands of standard input for NAME, one after the other, and prints the replies.

NAME is a tenant's, or `op:DEVICE` for the operator of a device. The status is 1 if a reply does not come within a minute.
As a module: `Client`. Each request has an id that the client gives, and the engine refuses an id that is not above the last
one; so a request whose answer was lost is sent again, and is there once. That holds if a name has one client at a time."""
import sys
import time
from typing import Iterator, List, Optional, Tuple

import redis

from engine import patient, url_of
from entries import ends_text, starts_text


class Client:
    def __init__(self, connection: redis.Redis, name: str, first: Optional[int] = None) -> None:
        self.redis, self.name = connection, name
        self.next = first or int(time.time() * 1e6)    # microseconds: above those of an earlier client of the name
        self.heard = f"{self.next - 1}-0"

    def put(self, text: str) -> str:
        """Sends a request, one command, exactly once. Returns its id."""
        is_sent = False
        while True:
            entry_id = f"{self.next}-0"
            try:
                self.redis.xadd("in:" + self.name, {"text": text}, id=entry_id)
                break
            except (redis.exceptions.ConnectionError, redis.exceptions.TimeoutError):
                is_sent = True    # perhaps
                time.sleep(0.05)
            except redis.exceptions.ResponseError as refusal:
                if "equal or smaller" not in str(refusal):
                    raise
                if is_sent:       # it is there, by a try whose answer was lost
                    break
                self.next = max(self.next + 1, int(time.time() * 1e6))    # another client of the name was faster
        self.next += 1
        return entry_id

    def replies(self, milliseconds: int = 1000, count: int = 256) -> List[Tuple[str, bytes]]:
        """The replies that came since, each with the id of its request, and each once."""
        some = patient(self.redis.xread, {"out:" + self.name: self.heard}, count=count, block=milliseconds)
        got = [(entry_id.decode(), fields[b"text"]) for _, entries in some for entry_id, fields in entries]
        if got:
            self.heard = got[-1][0]
        return got

    def ask(self, text: str, seconds: float = 60) -> bytes:
        """The reply to a request."""
        wanted, end = self.put(text), time.monotonic() + seconds
        while time.monotonic() < end:
            for entry_id, reply in self.replies():
                if entry_id == wanted:
                    return reply
        raise TimeoutError(f"{self.name}: no reply within {seconds} s")


def commands_of(lines: List[str]) -> Iterator[str]:
    """The commands of lines: a line, or a netlist with all of its lines. Lines without a word are none."""
    text: List[str] = []
    for line in lines:
        text.append(line)
        if starts_text(text[0].encode().rstrip(b"\n")) and not (len(text) > 1 and ends_text(line.encode().rstrip(b"\n"))):
            continue
        if "".join(text).strip():
            yield "".join(text)
        text = []


def main(words: List[str]) -> None:
    if len(words) != 2:
        sys.exit("client.py: the words are REDIS NAME")
    client = Client(redis.Redis.from_url(url_of(words[0])), words[1])
    try:
        for command in commands_of(sys.stdin.readlines()):
            sys.stdout.buffer.write(client.ask(command))
            sys.stdout.buffer.flush()
    except TimeoutError as error:
        sys.exit(f"client.py: {error}")
    except redis.exceptions.RedisError as error:
        sys.exit(f"client.py: {error}")


if __name__ == "__main__":
    main(sys.argv[1:])
