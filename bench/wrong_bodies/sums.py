"""Over which text an edit was refused: the sums that `edits/ledger.txt` has, one line an edit.

An edit's sum is of its own text, of its crate's src and specs, of the answers and invariants of its functions, of what the crate's lemmas
state, as far as one of these cites them (`wrong_bodies.statements`), and of what the crates below state, as far as all this reaches it by name
(`wrong_bodies.reach`): definitions of specs, and sources without the functions' bodies and without private functions. So a body that changes
below asks for nothing, nor does the proof of a lemma, which nobody sees who cites it, nor a statement that the crate cannot name. Comments and
empty lines count nowhere, and of imports what they bring: from where a file takes a name is no change (`wrong_bodies.imports`)."""
import fcntl
import hashlib
import os
import re

from wrong_bodies.edits import BLOCK, FUNCTION, TOP, crates, edits_of, read
from wrong_bodies.imports import Preludes, is_prelude
from wrong_bodies.reach import TRAIT, Reach, file_of, source_parts, spec_parts
from wrong_bodies.statements import cited

LEDGER = f"{TOP}/edits/ledger.txt"


def sum_of(*parts):
    return hashlib.sha256(repr(parts).encode()).hexdigest()


def code(text):
    """The lines that are not empty and not comments."""
    return [line for line in text.split("\n") if line.strip() and not line.strip().startswith(("//", "--"))]


def stated(lines):
    """The lines of a source that other crates can rest on: all but bodies and private functions. `rt fmt` has laid the file out."""
    kept, ends, of_trait = [], None, False
    # Of the function whose signature and clauses are being read.
    head, depth, is_begun, is_seen = "", 0, False, True
    for line in lines:
        if ends is not None:
            ends = None if line == ends else ends
            continue
        block, found = BLOCK.match(line), FUNCTION.match(line)
        if block:
            of_trait = "trait" in block[2] or " for " in line
        if found:
            head, depth, is_begun = found[1], 0, True
            is_seen = found[2] == "pub " or of_trait and head != ""
        if not is_begun or is_seen:
            kept.append(line)
        depth += sum(line.count(it) for it in "({[") - sum(line.count(it) for it in ")}]")
        if is_begun and (line == head + "{" or line.endswith("{") and (found or line.startswith(head + ")"))):
            ends, is_begun = head + "}", False
        elif not depth and (line.endswith(";") or line.endswith("}") and (found or line == head + "{}")):
            is_begun = False
    return kept


def files(top, crate, *parts):
    """The paths and lines of a crate's files but its preludes; comments are taken out, and imports stand first and by what they bring."""
    preludes = Preludes(top)
    for part in parts:
        for at, folders, names in os.walk(f"{top}/crates/{crate}/{part}"):
            folders.sort()
            for name in sorted(names):
                path = os.path.relpath(f"{at}/{name}", f"{top}/crates/{crate}")
                if not is_prelude(path):
                    lines = [line for line in read(f"{at}/{name}").split("\n") if not line.strip().startswith(("//", "--"))]
                    yield path, preludes.canonical([it for it in lines if it not in ("mod Prelude", "pub mod Prelude")])


def texts(top, crate, *parts):
    for path, lines in files(top, crate, *parts):
        yield path, code("\n".join(lines))


def crate_sums(top=TOP):
    """For each crate with edits the sum of what they rest on, beside their own text."""
    uses, below = crates(top), {}

    def under(name):
        if name not in below:
            below[name] = {it for use in uses[name] for it in (use, *under(use))}
        return below[name]

    sources = {name: list(files(top, name, "src")) for name in uses}
    traits = {found[1] for each in sources.values() for _, lines in each for found in map(TRAIT.match, lines) if found}
    parts = []
    for name in uses:
        for _, lines in files(top, name, "specs"):
            parts += spec_parts(name, lines)
        for _, lines in sources[name]:
            parts += source_parts(name, traits, stated(lines))
    reach, sums = Reach(parts, {name: under(name) for name in uses}), {}
    for name in uses:
        if edits_of(name, top):
            said = [*files(top, name, "src", "specs"), *cited(list(files(top, name, "src", "specs", "proofs")))]
            named = set()
            for path, lines in said:
                named |= file_of(name, lines, path.endswith(".rt")).names("\n".join(lines))
            reached = sorted({(it.crate, it.text) for it in reach.of(named, under(name))})
            sums[name] = sum_of([(path, code("\n".join(lines))) for path, lines in said], reached)
    return sums


def sum_of_edit(edit, sums):
    return sum_of(sums[edit.crate], edit.text)[:24]


def every_edit(top=TOP):
    return [edit for crate in sorted(crates(top)) for edit in edits_of(crate, top)]


def noted():
    """The sum over which each edit was refused last, by the edit's key."""
    if not os.path.isfile(LEDGER):
        return {}
    return dict(line.split() for line in read(LEDGER).splitlines())


def note(found):
    """Adds sums to the ledger, by the edits' keys; lines of edits that are gone go."""
    turn = os.open(f"{TOP}/edits", os.O_RDONLY)
    fcntl.flock(turn, fcntl.LOCK_EX)
    whole, known = {**noted(), **found}, {edit.key for edit in every_edit()}
    with open(f"{LEDGER}.new", "w", encoding="utf-8") as it:
        it.writelines(f"{key} {whole[key]}\n" for key in sorted(known & {*whole}))
    os.replace(f"{LEDGER}.new", LEDGER)
    os.close(turn)
