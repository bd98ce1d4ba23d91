"""The calls to the engine, all of them; the engine is Redis. Another one needs another file like this.

| Key | What it is |
|---|---|
| `names:DEVICE` | the set of the names that the device serves |
| `in:NAME` | a stream of what NAME asks, field `text`, with ids that NAME gives and that rise; `in:op:DEVICE` is the operator's |
| `req:DEVICE` | a stream of all of that in one order, with ids 1-0, 2-0, 3-0 .., fields `name`, `id`, `text`; `seq:DEVICE` counts |
| `out:NAME` | a stream of the replies, each with the id of what it answers, fields `text`, `k` |
| `log:DEVICE` | with workers: a stream of the leader's log, piece by piece; a piece has the log's bytes up to its end as id |
| `end:DEVICE` | with workers: where that stream ends, and a sum of all of its bytes |
| `lead:DEVICE` | with workers: who leads; it vanishes some seconds after the leader was last there |

Each call may be made twice with the effect of one, and is made until the engine has answered it."""
import re
import time
from typing import Any, Callable, Dict, Iterator, List, NamedTuple, Optional, Tuple

import redis

from entries import Entry, Reply

KEEP = 10000    # about how many replies of a name stay
NAME = re.compile(rb"[A-Za-z0-9_]{1,32}")
# A name that was taken from the set meanwhile keeps what it asks in its queue.
ORDER = """for i = 4, #KEYS do
  local name, bytes = string.sub(KEYS[i], 4), 0
  local here = string.sub(name, 1, 3) == 'op:' or redis.call('SISMEMBER', KEYS[3], name) == 1
  for _, entry in ipairs(here and redis.call('XRANGE', KEYS[i], '-', '+', 'COUNT', ARGV[1]) or {}) do
    local text = ''
    for f = 1, #entry[2], 2 do if entry[2][f] == 'text' then text = entry[2][f + 1] end end
    local number = string.format('%.0f-0', redis.call('INCR', KEYS[2]))
    redis.call('XADD', KEYS[1], number, 'name', name, 'id', entry[1], 'text', text)
    redis.call('XDEL', KEYS[i], entry[1])
    bytes = bytes + #text
    if bytes > tonumber(ARGV[2]) then break end
  end
end"""
# A reply that is there, or was there, is told already. To a tenant it must be the same.
TELL = """for i = 1, #KEYS do
  local id, k, text = ARGV[3 * i - 1], ARGV[3 * i], ARGV[3 * i + 1]
  local there = redis.call('XRANGE', KEYS[i], id, id)[1]
  if there and there[2][2] ~= text and string.sub(KEYS[i], 1, 7) ~= 'out:op:' then return k end
  if not there then
    local told = redis.pcall('XADD', KEYS[i], 'MAXLEN', '~', ARGV[1], id, 'text', text, 'k', k)
    if told.err and not string.find(told.err, 'equal or smaller') then return told end
  end
end"""
# The piece goes to where the leader means the log to end, or nowhere. With it go the replies that rest on it.
APPEND = """local at = redis.call('GET', KEYS[1]) or '0 -'
if at ~= ARGV[2] then
  if at ~= ARGV[1] then return 'replaced' end
  redis.call('XADD', KEYS[2], string.match(ARGV[2], '^%d+') .. '-0', 'sum', string.match(ARGV[2], '%S+$'), 'text', ARGV[3])
  redis.call('SET', KEYS[1], ARGV[2])
end
for i = 3, #KEYS do
  local id, k, text = ARGV[3 * i - 4], ARGV[3 * i - 3], ARGV[3 * i - 2]
  local told = redis.pcall('XADD', KEYS[i], 'MAXLEN', '~', ARGV[4], id, 'text', text, 'k', k)
  if told.err and not string.find(told.err, 'equal or smaller') then return told end
end"""
# If nobody leads, as after a disk that was slow, the one that led goes on.
LEAD = """local who = redis.call('GET', KEYS[1])
if who and who ~= ARGV[1] then return 0 end
redis.call('SET', KEYS[1], ARGV[1], 'PX', ARGV[2])
return 1"""


LEAVE = "if redis.call('GET', KEYS[1]) == ARGV[1] then redis.call('DEL', KEYS[1]) end"


class Place(NamedTuple):
    """A place in a log: the bytes before it, and their sum."""
    size: int
    sum: str

    def __str__(self) -> str:
        return f"{self.size} {self.sum}"


START = Place(0, "-")


def url_of(word: str) -> str:
    """A URL, or that which a file has, so that its password is on no command line."""
    if "://" in word:
        return word
    with open(word, encoding="utf-8") as file:
        return file.read().strip()


def number_of(entry_id: bytes) -> Tuple[int, int]:
    before, _, after = entry_id.partition(b"-")
    return int(before), int(after)


def patient(call: Callable, *words: Any, **options: Any) -> Any:
    """Makes a call until the engine has answered it: it may be down, or load, or the connection breaks."""
    while True:
        try:
            return call(*words, **options)
        except (redis.exceptions.ConnectionError, redis.exceptions.TimeoutError):
            time.sleep(0.1)


class Engine:
    def __init__(self, url: str, device: str) -> None:
        self.redis = redis.Redis.from_url(url_of(url), socket_timeout=30)
        self.device, self.operator = device, b"op:" + device.encode()
        self.stream, self.names_key = "req:" + device, "names:" + device
        self.log, self.end_key, self.lead_key = "log:" + device, "end:" + device, "lead:" + device
        self.scripts = {text: self.redis.register_script(text) for text in (ORDER, TELL, APPEND, LEAD, LEAVE)}

    def script(self, text: str, keys: List, words: List) -> Any:
        return patient(self.scripts[text], keys=keys, args=words)

    # Queues, and the one order

    def names(self) -> List[bytes]:
        """Those of the device. A word that is no name is none."""
        return [name for name in sorted(patient(self.redis.smembers, self.names_key)) if NAME.fullmatch(name)]

    def asked(self, names: List[bytes], milliseconds: int) -> List[bytes]:
        """Those of the names whose queues have something; waits until one has, or for some milliseconds."""
        some = patient(self.redis.xread, {b"in:" + name: "0" for name in names}, count=1, block=milliseconds)
        return [key[3:] for key, _ in some]

    def order(self, names: List[bytes], count: int, size: int) -> None:
        """Brings what names ask into the one order, of each some requests or bytes. Anybody may do it, all at once."""
        keys = [self.stream, "seq:" + self.device, self.names_key]
        self.script(ORDER, keys + [b"in:" + name for name in names], [count, size])

    def entries(self, after: int, count: int, milliseconds: int) -> List[Entry]:
        """The entries after a number; waits until there is one, or for some milliseconds."""
        some = patient(self.redis.xread, {self.stream: f"{after}-0"}, count=count, block=milliseconds)
        return [entry_of(*one) for _, entries in some for one in entries]

    def entries_back(self, before: int, count: int) -> List[Entry]:
        """The last entries up to a number, the last one first."""
        return [entry_of(*one) for one in patient(self.redis.xrevrange, self.stream, max=f"{before}-0", count=count)]

    def last_entry(self) -> int:
        return self.last_of(self.stream)[0]

    def last_of(self, stream: Any) -> Tuple[int, int]:
        last = patient(self.redis.xrevrange, stream, count=1)
        return number_of(last[0][0]) if last else (0, 0)

    # Replies

    def last_told(self, name: bytes) -> Tuple[int, int]:
        """The id of the last reply that the name was told."""
        return self.last_of(b"out:" + name)

    def tell(self, replies: List[Tuple[Entry, Reply]]) -> Optional[int]:
        """Tells replies. Returns the number of one that was told otherwise before, and stops there."""
        keys, words = words_of(replies)
        return int(self.script(TELL, keys, [KEEP] + words) or 0) or None

    # The log of a leader

    def lead(self, who: str, milliseconds: int) -> bool:
        """Leads, or goes on leading, for some milliseconds, if nobody else does."""
        return bool(self.script(LEAD, [self.lead_key], [who, milliseconds]))

    def leave(self, who: str) -> None:
        """Leads no longer, so that another one need not wait."""
        self.script(LEAVE, [self.lead_key], [who])

    def append(self, old: Place, new: Place, piece: bytes, replies: List[Tuple[Entry, Reply]]) -> bool:
        """Appends a piece of the log at its place, and tells the replies, both or nothing. False: the log goes on otherwise."""
        keys, words = words_of(replies)
        return self.script(APPEND, [self.end_key, self.log] + keys, [str(old), str(new), piece, KEEP] + words) is None

    def log_end(self) -> Place:
        size, _, total = (patient(self.redis.get, self.end_key) or b"0 -").decode().partition(" ")
        return Place(int(size), total)

    def pieces(self, after: int, milliseconds: int) -> List[Tuple[Place, bytes]]:
        """Pieces of the log that end after some bytes; waits until there is one, or for some milliseconds."""
        some = patient(self.redis.xread, {self.log: f"{after}-0"}, count=64, block=milliseconds)
        return [piece_of(*one) for _, entries in some for one in entries]

    def places_back(self) -> Iterator[Place]:
        """The ends of the log's pieces, the last one first."""
        before = "+"
        while some := patient(self.redis.xrevrange, self.log, max=before, count=16):
            yield from (piece_of(*one)[0] for one in some)
            before = "(" + some[-1][0].decode()


def entry_of(entry_id: bytes, fields: Dict[bytes, bytes]) -> Entry:
    return Entry(number_of(entry_id)[0], fields[b"name"], fields[b"id"], fields[b"text"])


def piece_of(entry_id: bytes, fields: Dict[bytes, bytes]) -> Tuple[Place, bytes]:
    return Place(number_of(entry_id)[0], fields[b"sum"].decode()), fields[b"text"]


def words_of(replies: List[Tuple[Entry, Reply]]) -> Tuple[List, List]:
    """The keys of replies, and the words of each. What has no id waits for no reply."""
    wanted = [(entry, reply) for entry, reply in replies if entry.id]
    return [b"out:" + entry.name for entry, _ in wanted], [word for entry, reply in wanted for word in (entry.id, entry.number, reply.text)]
