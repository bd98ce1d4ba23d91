"""A crate's proofs made shorter, one way after the other."""
import os
import subprocess

from bare_contracts.sources import files_in
from wrong_bodies.edits import read
from shorter_proofs import answers, parts, single, whole
from shorter_proofs.laboratory import Laboratory, put
from shorter_proofs.place import Citations, cleaned, placed
from shorter_proofs.texts import LemmaFile, lemma_files

# How much slower a check may become, and the processor seconds that are no matter.
SLOWER = 1.1
FEW = 6
# As long as lemmas are taken into others, but no longer.
ROUNDS = 3


class Crate:
    def __init__(self, top, name, kit, tell):
        self.top, self.name, self.kit, self.folder = top, name, kit, f"{top}/crates/{name}"
        self.tell = lambda text: tell(f"{name}: {text}")

    def texts(self):
        """The crate's sources and proofs by their paths."""
        return {it: read(it) for part in ("src", "specs", "proofs") for it in files_in(f"{self.folder}/{part}") if it.endswith((".rt", ".antt"))}

    def put_back(self, before):
        for path in set(self.texts()) - set(before):
            os.remove(path)
        for path, text in before.items():
            put(path, text)

    def files(self):
        """The files of lemmas that may change."""
        return [LemmaFile(self.top, it) for it in lemma_files(self.folder) if not os.path.basename(it).startswith("Examples")]

    def shorten(self, with_answers, is_checked):
        """Makes the proofs shorter; returns whether the crate is checked then, and None if a library is wrong."""
        before = self.texts()
        if not self.shorten_lemmas() or with_answers and not self.shorten_answers():
            self.put_back(before)
            return None
        if self.texts() == before:
            self.tell("nothing is shorter")
            return True
        self.lay_out()
        lines = [sum(it.count("\n") for path, it in texts.items() if path.startswith(f"{self.folder}/proofs/")) for texts in (before, self.texts())]
        self.tell(f"{lines[0]} lines of proofs before, {lines[1]} now")
        if is_checked and self.run("bench/bare", "--jobs", "1", self.name):
            self.tell("the check refuses this: all of it is taken back")
            self.put_back(before)
            return False
        return True

    def run(self, *words, folder=None):
        return subprocess.run(words, cwd=folder or self.top, check=False, stdin=subprocess.DEVNULL).returncode

    def lay_out(self):
        self.run("bench/preludes", self.name)
        self.run("rt", "fmt", folder=self.folder)

    def laboratory(self, is_whole=False):
        """A laboratory and the processor seconds of its check; None if it cannot be checked as it is."""
        made = Laboratory(self.top, self.name, self.kit, self.tell, is_whole)
        status, seconds = made.measured() if made.is_ready else (2, 0)
        self.tell(f"{'the crate' if is_whole else 'its lemmas'}: status {status} after {seconds:.1f} processor seconds")
        return None if status else (made, seconds)

    def shorten_lemmas(self):
        """Makes proofs of lemmas shorter; returns whether they could be checked before."""
        ways = [
            ("by tactics", lambda files, _: whole.shorter(laboratory, files, self.tell)),
            *[("fewer lemmas", lambda files, citations: single.shorter(laboratory, files, citations, self.tell))] * ROUNDS,
            ("parts", lambda files, _: parts.shorter(laboratory, files, self.tell)),
        ]
        begun = self.laboratory()
        if begun is None:
            return False
        (laboratory, seconds), ended = begun, set()
        for name, way in ways:
            if name not in ended:
                now = self.go(laboratory, name, way, seconds)
                ended |= {name} if now is None else set()
                seconds = now or seconds
        return True

    def go(self, laboratory, name, way, seconds):
        """Goes one way; returns the seconds of a check then, None if nothing is changed."""
        before, files, citations = self.texts(), self.files(), Citations(self.top)
        attempts = way(files, citations)
        texts = placed(laboratory, files, attempts, self.tell) if attempts else None
        if not texts:
            return None
        for path, text in cleaned(laboratory, files, texts, citations, self.tell).items():
            put(path, text)
        return self.kept(laboratory, f"{name}: {len(attempts)} proofs", before, seconds)

    def kept(self, laboratory, what, before, seconds):
        """Keeps what was written if it is checked, and not much slower; returns the seconds then."""
        self.lay_out()
        laboratory.fill()
        status, now = laboratory.measured()
        is_kept = not status and now <= max(seconds * SLOWER, seconds + FEW)
        self.tell(f"{what}; {seconds:.1f} processor seconds before, {now:.1f} now{'' if is_kept else ': taken back'}")
        if is_kept:
            return now
        self.put_back(before)
        laboratory.fill()
        return None

    def shorten_answers(self):
        """Makes answers shorter; returns whether the crate could be checked before."""
        begun = self.laboratory(is_whole=True)
        if begun is None:
            return False
        before, (laboratory, seconds) = self.texts(), begun
        if answers.shorten(laboratory, self.top, self.folder, self.tell):
            self.kept(laboratory, "answers", before, seconds)
        return True
