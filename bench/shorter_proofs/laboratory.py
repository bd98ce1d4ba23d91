"""A copy of a crate in which trials are checked, over the bare libraries below it."""
import contextlib
import hashlib
import os
import re
import resource
import shutil

from bare_contracts.libraries import CACHE, Libraries, lines_of_crates
from bare_contracts.sources import files_in
from wrong_bodies.edits import read

# `grind` and `search` can fill in data by any value; the gate refuses the note.
FAULT = re.compile(r"^(?:\./)?((?:proofs|src)/\S+?):(\d+):\d+: (error: [^\n]*|note: [^\n]*has chosen a term[^\n]*)", re.M)
UNREAD = re.compile(r"error: (expected|unexpected|unclosed|unmatched|unterminated)")


def put(path, text):
    """Writes a file, if it has another text."""
    os.makedirs(os.path.dirname(path), exist_ok=True)
    if not os.path.isfile(path) or read(path) != text:
        with open(path, "w", encoding="utf-8") as it:
            it.write(text)


class Laboratory:
    """A crate's lemmas over its own bare contracts; with `is_whole` the crate as it is."""

    def __init__(self, top, name, kit, tell, is_whole=False):
        self.name, self.source = name, f"{top}/crates/{name}"
        place = hashlib.sha256(f"{top} {name} {is_whole}".encode()).hexdigest()[:16]
        self.libraries = Libraries(top, kit, tell, at=f"{CACHE}/trials/{place}")
        self.is_ready = self.libraries.build_below([name], 1)
        # A program has no bare contracts.
        self.is_whole = is_whole or name not in self.libraries.lines
        if name not in self.libraries.lines:
            put(f"{self.libraries.at}/crates.txt", read(f"{self.libraries.at}/crates.txt") + lines_of_crates(top)[name] + "\n")
        self.folder = f"{self.libraries.at}/crates/{name}"
        self.kept = f"{self.libraries.at}/kept"
        self.fill()

    def fill(self):
        """Gives the copy the crate's files: all of them, or those of its lemmas."""
        parts = ("src", "specs", "proofs", "data") if self.is_whole else ("proofs",)
        wanted = {os.path.relpath(path, self.source) for part in parts for path in files_in(f"{self.source}/{part}")}
        if not self.is_whole:
            wanted = {it for it in wanted if os.path.basename(it) not in ("Answers.antt", "Invariants.antt", "Proof.antt")}
        for part in parts:
            for path in files_in(f"{self.folder}/{part}"):
                if os.path.relpath(path, self.folder) not in wanted:
                    os.remove(path)
        for it in wanted:
            if it.endswith((".antt", ".rt")):
                put(f"{self.folder}/{it}", read(f"{self.source}/{it}"))
            elif not os.path.isfile(f"{self.folder}/{it}"):
                shutil.copyfile(f"{self.source}/{it}", f"{self.folder}/{it}")
        if "proofs/Never.antt" in wanted:
            self.rename_end()

    def rename_end(self):
        """Gives the bare contracts' module `never` another name, beside lemmas of that name."""
        for path in files_in(f"{self.folder}/src"):
            text = read(path).replace("crate::never::", "crate::bare_end::").replace("mod never;", "mod bare_end;")
            put(path.replace("/never.rt", "/bare_end.rt"), text)
            if path.endswith("/never.rt"):
                os.remove(path)

    def path(self, of_crate):
        """The path in the copy of a file of the crate."""
        return f"{self.folder}/{os.path.relpath(of_crate, self.source)}"

    @contextlib.contextmanager
    def with_texts(self, texts):
        """The copy with other texts, by the paths of the crate's files; a text None is no file."""
        before = {path: read(self.path(path)) for path in texts if os.path.isfile(self.path(path))}
        for path, text in texts.items():
            if text is None:
                os.remove(self.path(path))
            else:
                put(self.path(path), text)
        try:
            yield
        finally:
            for path in texts:
                if path in before:
                    put(self.path(path), before[path])
                else:
                    os.remove(self.path(path))

    def check(self):
        """Checks the copy; returns the status and what the check says."""
        crate = self.libraries.crate(self.name, True)
        words = self.libraries.words(crate, ["--allow-holes", "--jobs", "1"])
        # Bare contracts have a foreign function, so they name something to link, which is never looked for.
        if not self.is_whole:
            words = [f"{self.name}=//never" if it == f"{self.name}=" else it for it in words]
        os.makedirs(self.kept, exist_ok=True)
        return self.libraries.run("check", words, ["--incremental", self.kept], crate.folder)

    def measured(self):
        """Checks the copy from nothing; returns the status and the processor seconds."""
        shutil.rmtree(self.kept, ignore_errors=True)
        begun = spent()
        status, _ = self.check()
        return status, spent() - begun

    def faults(self, said):
        """The faults that a check tells of: for each file of the crate its lines with what is wrong; None if the check did not end."""
        if "holes=" not in said[-400:] and not UNREAD.search(said):
            return None
        found = {}
        for path, line, fault in FAULT.findall(said):
            found.setdefault(f"{self.source}/{path}", {}).setdefault(int(line), fault)
        return found


def spent():
    of_children = resource.getrusage(resource.RUSAGE_CHILDREN)
    return of_children.ru_utime + of_children.ru_stime
