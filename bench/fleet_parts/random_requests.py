"""Random requests of a name."""
import random
from typing import List, NamedTuple

KINDS = ["status", "upload", "change", "pack", "place", "route", "wait", "file", "cancel", "withdraw", "junk", "all"]
WEIGHTS = [20, 10, 8, 10, 10, 10, 15, 8, 3, 3, 4, 2]
FAULTS = [".names q\xe9 x\n", "foo\n", ".latch a zz re clk 0\n", "\n", "# no\n", "@bob status\n", "op evict t1\n", "done @t1/1\n"]
JUNK = ["frob\n", "place 1\n", "wait wait\n", "place -1 5\n", "@t1 status\n", "op evict t1\n", "=", "#\n", "x" * 5000 + "\n"]
SAID_BY_OPERATOR = ["list\n", "list", "owners\n", "admit t0 4\n", "evict nobody\n", "move t1 60\n", "what\n", "# no form\n"]
REFUSED_OF_OPERATOR = ["end\n", "echo done 5\n", " echo begin 7\n", "list\nlist\n"]
NO_COMMANDS = ["", "\n", " \t\n", "status\nstatus\n", "upload\n.model half\n", "change\n.\n.\n", "change\n.\nwait\n"]
FLOW = ["withdraw\n", "upload\n%s.\n", "pack\n", "wait\n", "place 7 20\n", "wait\n", "route\n", "wait\n", "routefile\n"]


class Request(NamedTuple):
    """A request, and whether the fleet refuses it."""
    text: bytes
    is_refused: bool


def netlist(draw: random.Random, tables: int = 9) -> str:
    names, out = ["a", "b", "c"], []
    for k in range(draw.choice([draw.randint(1, 9), draw.randint(1, tables)])):
        ins = draw.sample(names, min(len(names), draw.randint(1, 4)))
        out.append(".names " + " ".join(ins) + f" n{k}\n" + "".join(draw.choice("01-") for _ in ins) + " 1\n")
        names.append(f"n{k}")
    if draw.random() < 0.1:
        out.insert(draw.randint(0, len(out)), draw.choice(FAULTS))
    outputs = " ".join(names[3:][-draw.randint(1, 3):])
    return f".model m\n.inputs a b c\n.outputs {outputs}\n{''.join(out)}.end\n"


def texts_of(draw: random.Random, tables: int) -> List[str]:
    kind = draw.choices(KINDS, WEIGHTS)[0]
    if kind in ("upload", "change"):
        return [f"{kind}\n{netlist(draw, tables)}.\n"]
    if kind == "place":
        return [f"place {draw.randint(0, 1 << 62)} {draw.choice([0, 5, 20, 100, 101])}\n"]
    if kind == "file":
        return [draw.choice(["net\n", "placefile\n", "routefile\n"])]
    if kind == "junk":
        return [draw.choice(JUNK)]
    if kind == "all":
        return [text % netlist(draw, tables) if "%" in text else text for text in FLOW]
    return [kind + "\n"]


def requests(draw: random.Random, count: int, tables: int = 9) -> List[Request]:
    found: List[Request] = []
    while len(found) < count:
        if draw.random() < 0.03:
            found.append(Request(draw.choice(NO_COMMANDS).encode(), True))
        else:
            found += [Request(text.encode("latin-1"), False) for text in texts_of(draw, tables)]
    return found[:count]


def said_by_operator(draw: random.Random, count: int) -> List[Request]:
    """What the operator asks. It changes nothing of what a name is answered."""
    found = []
    for _ in range(count):
        is_refused = draw.random() < 0.1
        text = draw.choice(REFUSED_OF_OPERATOR if is_refused else SAID_BY_OPERATOR)
        found.append(Request(text.encode(), is_refused))
    return found


def script_of(name: str, said: List[Request]) -> bytes:
    """The script that says the same to `fpgad`."""
    lines = [b"op admit %s 4\n" % name.encode()]
    for text, is_refused in said:
        if not is_refused:
            lines.append(b"@%s %s\n" % (name.encode(), text.removesuffix(b"\n")))
    return b"".join(lines)
