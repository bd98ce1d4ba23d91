"""Puts shorter proofs in place, and drops the lemmas and imports that nothing needs then."""
import os
import re

from bare_contracts.sources import files_in
from wrong_bodies.edits import read
from shorter_proofs.texts import LemmaFile, NAME_OF_DEFINITION, is_import, separated, words

GROUP = re.compile(r"use (Rattle\.\S+?)\.\{(.*)\}$")


def rewritten(file, attempts):
    """A file's text with these proofs, and the lines that each has there."""
    lines, spans, at = [], {}, 0
    for it in sorted(attempts, key=lambda it: it.lemma.start):
        lines += file.lines[at : it.lemma.first]
        more = [" " * it.lemma.indent + line if line else line for text in it.texts() for line in text.split("\n")]
        spans[it.lemma.name] = [len(lines) + 1, len(lines) + len(more)]
        lines += more
        at = it.lemma.end
    lines += file.lines[at:]
    cited = words("\n".join(it for it in lines if not is_import(it)))
    names = [it for it in ("arith", "rules")[: 1 + file.wants_rules] if it in cited]
    text = file.with_names("".join(f"{it}\n" for it in lines), names)
    added = text.count("\n") - len(lines)
    return text, {name: (begin + added, end + added) for name, (begin, end) in spans.items()}


def placed(laboratory, files, attempts, tell):
    """The texts of the files with these proofs, but for those that the check refuses in place; None if there is another fault."""
    left = list(attempts)
    for _ in range(6):
        texts, spans = {}, {}
        for file in files:
            mine = [it for it in left if it.file is file]
            if mine:
                texts[file.path], spans[file.path] = rewritten(file, mine)
        with laboratory.with_texts(texts):
            status, said = laboratory.check()
        faults = laboratory.faults(said) or {}
        if not status and not faults.keys() & texts.keys():
            return texts
        refused = [it for it in left for line in faults.get(it.file.path, ()) if within(spans, it, line)]
        if not refused:
            tell(f"nothing is put in place: {said[-400:]}")
            return None
        left = [it for it in left if not any(it is other for other in refused)]
    return None


def within(spans, attempt, line):
    begin, end = spans[attempt.file.path][attempt.lemma.name]
    return begin <= line <= end


def without_imports(text, before):
    """A file's text without the imports of names that it cites no more, and cited before."""
    def cited(of):
        return words("\n".join(it for it in of.split("\n") if not is_import(it)))

    now, was, lines = cited(text), cited(before), []
    for line in text.split("\n"):
        found = GROUP.match(line)
        left = [it for it in separated(found[2]) if not is_gone(it, now, was)] if found else []
        if not found:
            lines.append(line)
        elif left:
            lines.append(f"use {found[1]}.{{{', '.join(left)}}}")
    return "\n".join(lines)


def is_gone(item, now, was):
    parts = [it for it in item.split(" as ")[-1].strip().split("◌") if it]
    return any(it not in now for it in parts) and all(it in was for it in parts)


class Citations:
    """The words of all other files of the checkout: what one of them names stays."""

    def __init__(self, top):
        self.words = {}
        for folder in ("crates", "edits", "docs"):
            for path in files_in(f"{top}/{folder}"):
                if path.endswith((".antt", ".rt", ".edit", ".md")) and "/out/" not in path:
                    text = read(path)
                    self.words[path] = set(re.findall(r"[\w'≡≤<≢-]+", text)) if path.endswith(".md") else words(text)

    def named(self, name, but):
        return any(name in found for path, found in self.words.items() if path != but)


def without_unused(new, files, kept, citations, tell):
    """The new texts without the lemmas and definitions that nothing cites, but for those that are kept."""
    texts = dict(new)
    for path, text in texts.items():
        citations.words[path] = words(text)
    is_changed = True
    while is_changed:
        is_changed = False
        for file in files:
            gone = [it for it in unused(LemmaFile(file.top, file.path, texts[file.path]), citations) if it[2] not in kept]
            for begin, end, name in reversed(gone):
                tell(f"{os.path.basename(file.path)}: nothing cites {name}")
                texts[file.path] = without_lines(texts[file.path], begin, end)
            citations.words[file.path] = words(texts[file.path])
            is_changed = is_changed or bool(gone)
    return texts


def unused(file, citations):
    """The lines and names of the declarations that nothing cites, in order."""
    found = []
    for begin, end, name in declarations(file):
        rest = "\n".join(file.lines[:begin] + file.lines[end:])
        if "◌" not in name and name not in words(rest) and not citations.named(name, file.path):
            while begin and file.lines[begin - 1].lstrip().startswith("--"):
                begin -= 1
            # The comment that a file begins with is the file's.
            if begin:
                found.append((begin, end, name))
    return found


def declarations(file):
    """The lines and names of a file's lemmas, and of its definitions by one equation."""
    found = [(it.start, it.end, it.name) for it in file.lemmas]
    for at, line in enumerate(file.lines):
        defined = NAME_OF_DEFINITION.match(line)
        if defined and line.startswith(("abbrev", "unfoldable")):
            end = at + 1
            while end < len(file.lines) and file.lines[end].strip() and (file.lines[end][0] in " }])" or file.lines[end].split()[0] == defined[1]):
                end += 1
            found.append((at, end, defined[1]))
    return sorted(found)


def without_lines(text, begin, end):
    lines = text.split("\n")
    return re.sub(r"\n{3,}", "\n\n", "\n".join(lines[:begin] + lines[end:])).rstrip("\n") + "\n"


def cleaned(laboratory, files, texts, citations, tell):
    """The texts without what nothing needs; a file in which the check finds a fault then keeps it."""
    changed = [it for it in files if it.path in texts]
    before, after = {it.path: it.text for it in changed}, dict(texts)
    # What nothing cited before is there on purpose.
    kept = {name for it in changed for *_, name in unused(it, citations)}
    for _ in range(3):
        after = {path: without_imports(it, before[path]) for path, it in after.items()}
        after = without_unused(after, changed, kept, citations, tell)
    for _ in range(3):
        with laboratory.with_texts(after):
            status, said = laboratory.check()
        if not status:
            return after
        wrong = set(laboratory.faults(said) or ()) & set(after)
        after = {path: texts[path] if path in wrong else it for path, it in after.items()}
    return texts
