"""What is between the stream of requests and the service: entries, their lines, the replies, and what a log has of them.

An entry of the stream is one request of one name, with a number K from 1. A request is one command: a line with a word,
or a netlist from its `upload` or `change` to its `.`. Each of its lines is handed over with the tag `@NAME/K`, so its
reply has this tag too, and `done @NAME/K` ends it. Lines of the operator have no ids, so three marks do it there:

| Line | Reply | Meaning |
|---|---|---|
| `op echo begin K`, the line, `op echo done K` | `op begin K`, the reply, `op done K` | the operator's request K |
| `op echo refused K` | `op refused K` | K is no single command: it is not handed over |
| `op echo all K` | none is waited for | all entries up to K were served and told before; `shorten` writes it |

So each K that was answered is in the log, and a log says by itself what was served."""
import re
from typing import Dict, Iterable, List, NamedTuple, Optional, Set, Tuple

LONGEST = 2101248    # the most bytes of a request, more than the service accepts of a netlist
COMMAND = 4096       # the most bytes of a command that is no netlist
REFUSAL = b"fleet: not one command\n"
OPERATOR = b"op"     # the operator's key where others are by name; a name may be `op` too, so those have a `@` there
FORBIDDEN = [[b"echo"], [b"end"]]    # to the operator: the marks are the connector's, and the service does not end
TEXT_START = re.compile(rb"[ \t\r]*(upload|change)[ \t\r]*")
TAGGED = re.compile(rb"(@[A-Za-z0-9_]{1,32})/([0-9]{1,20}) (.*)", re.S)
MARK = re.compile(rb"op echo (begin|done|refused|all) ([0-9]{1,20})")


class Entry(NamedTuple):
    """A request in the order of the device: its number, who asks, the id that the client gave, and the text.

    An entry without an id is said again after a move to another device: nobody waits for its reply."""
    number: int
    name: bytes
    id: bytes
    text: bytes


class Reply(NamedTuple):
    """The whole reply to an entry. One without a number is that to the oldest request of its name."""
    number: Optional[int]
    name: bytes
    text: bytes


def starts_text(line: bytes) -> bool:
    said = line.removesuffix(b"\r")
    return TEXT_START.fullmatch(said) is not None and len(said) <= COMMAND


def ends_text(line: bytes) -> bool:
    return line.removesuffix(b"\r") == b"."


def is_command(lines: List[bytes]) -> bool:
    """Whether lines are one command of a name, as the service reads them: then they have one reply."""
    if sum(map(len, lines)) + len(lines) > LONGEST:
        return False
    if not starts_text(lines[0]):
        return len(lines) == 1 and lines[0].strip(b" \t\r") != b""
    return [k for k, line in enumerate(lines) if k and ends_text(line)] == [len(lines) - 1] and len(lines) > 1


def is_refused(entry: Entry) -> bool:
    """Whether a request is no command, and so is not handed over."""
    lines = entry.text.removesuffix(b"\n").split(b"\n")
    if entry.name.startswith(b"op:"):
        return len(lines) != 1 or lines[0].split()[:1] in FORBIDDEN or len(lines[0]) > COMMAND
    return not is_command(lines)


def lines_of(entry: Entry) -> List[bytes]:
    """The lines that are handed over for an entry."""
    lines, number = entry.text.removesuffix(b"\n").split(b"\n"), b"%d" % entry.number
    if is_refused(entry):
        return [b"op echo refused " + number]
    if entry.name.startswith(b"op:"):
        return [b"op echo begin " + number, b"op " + lines[0], b"op echo done " + number]
    return [b"@%s/%s %s" % (entry.name, number, line) for line in lines]


class Replies:
    """Puts the service's output together."""

    def __init__(self) -> None:
        self.coming: Dict[bytes, List[bytes]] = {}
        self.operator: List[bytes] = []

    def of(self, line: bytes) -> Optional[Reply]:
        """The reply that a line of the output ends, if it ends one."""
        tag, _, says = line.partition(b" ")
        if tag == b"done":
            name, _, number = says[1:].partition(b"/")
            return Reply(int(number), name, b"".join(self.coming.pop(says, [])))
        if tag.startswith(b"@"):
            if b"/" not in tag:    # a command that was lost, with workers
                return Reply(None, tag[1:], says + b"\n")
            self.coming.setdefault(tag, []).append(says + b"\n")
        elif tag == b"?":          # its number differs if a replica's log was made shorter
            self.operator.append(b"?\n")
        else:
            return self.of_operator(says)
        return None

    def of_operator(self, says: bytes) -> Optional[Reply]:
        word, _, number = says.partition(b" ")
        if word == b"begin":
            self.operator = []
        elif word == b"done":
            return Reply(int(number), OPERATOR, b"".join(self.operator))
        elif word == b"refused" and number.isdigit():
            return Reply(int(number), OPERATOR, REFUSAL)
        else:
            self.operator.append(says + b"\n")
        return None


class Served:
    """What a log has of the stream's entries."""

    def __init__(self, lines: Iterable[bytes]) -> None:
        self.floor = 0                                   # all entries up to this one are there
        self.whole: Set[int] = set()                     # and these
        self.first: Dict[int, int] = {}                  # the line, counted from 1, with which an entry begins
        self.last: Dict[bytes, Tuple[int, int]] = {}     # of each name: its last entry, and how many lines of it are there
        self.open: Dict[bytes, int] = {}                 # of each name: the entry of which more lines have to come
        self.said: List[bytes] = []                      # what the operator said since an entry of his began
        self.lines = 0                                   # how many lines the log has
        for line in lines:
            self.note(line.removesuffix(b"\n"))

    def note(self, line: bytes) -> None:
        self.lines += 1
        if tagged := TAGGED.fullmatch(line):
            name, number, says = tagged[1], int(tagged[2]), tagged[3]
            self.count(name, number)
            is_open = starts_text(says) if self.last[name][1] == 1 else not ends_text(says)
            self.be_open(name, number, is_open)
        elif mark := MARK.fullmatch(line):
            self.note_mark(mark[1], int(mark[2]))
        elif OPERATOR in self.open and line.startswith((b"op ", b"? op ")):
            self.said.append(line.removeprefix(b"? "))

    def note_mark(self, word: bytes, number: int) -> None:
        if word == b"all":
            self.floor, self.whole, self.open = number, set(), {}
        elif word == b"refused":
            self.count(b"", number)
            self.be_open(b"", number, False)
        else:
            self.count(OPERATOR, number)
            self.be_open(OPERATOR, number, word == b"begin")
            self.said = []

    def count(self, name: bytes, number: int) -> None:
        before, count = self.last.get(name, (0, 0))
        self.last[name] = number, count + 1 if before == number else 1
        self.first.setdefault(number, self.lines)

    def be_open(self, name: bytes, number: int, is_open: bool) -> None:
        self.open.pop(name, None)
        if is_open:
            self.open[name] = number
        else:
            self.whole.add(number)

    def newest(self) -> int:
        """The greatest number of an entry of which the log has something."""
        return max([self.floor, *self.first])

    def missing(self) -> int:
        """The least number of an entry of which the log has not all lines."""
        number = self.floor + 1
        while number in self.whole:
            number += 1
        return number

    def rest_of(self, entry: Entry) -> List[bytes]:
        """The lines of an entry that the log does not have."""
        key = OPERATOR if entry.name.startswith(b"op:") else b"@" + entry.name
        number, count = self.last.get(key, (0, 0))
        if entry.number <= self.floor or entry.number in self.whole or entry.number < number:
            return []
        lines = lines_of(entry)
        if entry.number != number:
            return lines
        if key == OPERATOR:
            return [line for line in lines[1:] if line not in self.said]
        return lines[count:]
