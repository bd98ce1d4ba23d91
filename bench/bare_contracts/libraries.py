"""The libraries of a checkout with bare contracts, built and kept.

They are kept in ~/.cache/fpgad-bare by a checksum of the kit, of their texts and of those below, for all checkouts of this machine. A verdict never
rests on them: `rt ci` proves each crate over the real libraries."""
import contextlib
import fcntl
import hashlib
import importlib.machinery
import io
import os
import shutil
import subprocess
import sys
import threading
import types

from bare_contracts.sources import Lemmas, bare_texts, files_in
from wrong_bodies.edits import read

CACHE = os.path.join(os.environ.get("XDG_CACHE_HOME") or os.path.expanduser("~/.cache"), "fpgad-bare")


def load_kit():
    """The kit's own module `rt`, with the libraries below each crate listed once."""
    path = os.path.realpath(shutil.which("rt"))
    kit = types.ModuleType("rt")
    kit.__file__ = path
    importlib.machinery.SourceFileLoader("rt", path).exec_module(kit)
    below, found = kit.rtlib.Crate.below, {}

    def once(crate):
        if crate.folder not in found:
            found[crate.folder] = below(crate)
        return list(found[crate.folder])

    kit.rtlib.Crate.below = once
    for it in (kit.rtlib.ALLOW_C, kit.rtlib.BACKEND, "RT_SECONDS"):
        os.environ.pop(it, None)
    # As under `rt ci`: the crates above a library load its statements.
    kit.Crate.cuts_libraries = True
    return kit


def lines_of_crates(top):
    """The line of each crate in crates.txt, by its name."""
    lines = (it.split("#")[0].strip() for it in read(f"{top}/crates.txt").splitlines())
    return {it.partition(":")[0].split()[0]: it for it in lines if it}


class Libraries:
    def __init__(self, top, kit, tell, at=None):
        """The libraries of the checkout `top`; their texts are written into the folder `at`."""
        self.top, self.kit, self.tell = os.path.realpath(top), kit, tell
        self.kit.Crate.allowed = self.kit.handles_of(self.top)
        self.guard = self.kit.rtlib.guarded()
        self.lines, self.keys, self.lows, self.crates = {}, {}, {}, {}
        self.turn = threading.Lock()
        self.at = at or f"{CACHE}/texts/{hashlib.sha256(self.top.encode()).hexdigest()[:16]}"
        os.makedirs(f"{self.at}/.git", exist_ok=True)
        with self.alone(f"{self.at}/.git/turn"):
            self.write()

    @contextlib.contextmanager
    def alone(self, path):
        """Does something while no other process does it."""
        with open(path, "w", encoding="utf-8") as it:
            fcntl.flock(it, fcntl.LOCK_EX)
            yield

    def write(self):
        """Writes the texts of all libraries; files that stay the same are left alone."""
        whole = lines_of_crates(self.top)
        self.lines = {name: line for name, line in whole.items() if os.path.isfile(f"{self.top}/crates/{name}/src/lib.rt")}
        lemmas, wanted = Lemmas(self.top, whole), set()
        texts = {"crates.txt": "".join(f"{it}\n" for it in self.lines.values()), "HANDLES": read(f"{self.top}/HANDLES")}
        for name in self.lines:
            texts |= {f"crates/{name}/{path}": text for path, text in bare_texts(self.top, name, lemmas).items()}
        for path, text in texts.items():
            path = f"{self.at}/{path}"
            wanted.add(path)
            os.makedirs(os.path.dirname(path), exist_ok=True)
            if not os.path.isfile(path) or read(path) != text:
                with open(path, "w", encoding="utf-8") as it:
                    it.write(text)
        for path in files_in(f"{self.at}/crates"):
            if path not in wanted:
                os.remove(path)

    def below(self, name):
        """The libraries below one, each after those that it uses."""
        if name not in self.lows:
            found = {}
            for low in self.lines[name].partition(":")[2].split():
                if low in self.lines:
                    found |= dict.fromkeys([*self.below(low), low])
            self.lows[name] = [*found]
        return self.lows[name]

    def key(self, name):
        if name not in self.keys:
            tool = os.stat(self.kit.rtlib.RATTLE)
            total = hashlib.sha256(f"{tool.st_size} {tool.st_mtime_ns} {self.lines[name]}".encode())
            for path in (path for part in ("src", "specs", "proofs") for path in files_in(f"{self.at}/crates/{name}/{part}")):
                total.update(f"\0{os.path.relpath(path, self.at)}\0{read(path)}".encode())
            for low in self.below(name):
                total.update(self.key(low).encode())
            self.keys[name] = total.hexdigest()[:24]
        return self.keys[name]

    def rlib(self, name):
        return f"{CACHE}/libraries/{self.key(name)}/{name}.rlib"

    def is_built(self, name):
        return os.path.isfile(f"{CACHE}/libraries/{self.key(name)}/done")

    def crate(self, name, is_bare=False):
        """A crate of the checkout, or of its bare libraries, over bare libraries."""
        top = self.at if is_bare else self.top
        with self.turn, contextlib.redirect_stdout(io.StringIO()):
            if f"{top}/crates/{name}" not in self.crates:
                self.crates[f"{top}/crates/{name}"] = self.kit.Crate(f"{top}/crates/{name}", top, self.crates)
            crate = self.crates[f"{top}/crates/{name}"]
            for low in crate.below():
                low.rlib = self.rlib(low.name)
            return crate

    def words(self, crate, flags):
        with self.turn, contextlib.redirect_stdout(io.StringIO()):
            return crate.words(flags, keeps=False)

    def build(self, name):
        """Builds a library over those below, and returns what the kit says if it doesn't."""
        folder = f"{CACHE}/libraries/{self.key(name)}"
        os.makedirs(folder, exist_ok=True)
        with self.alone(f"{folder}/turn"):
            if self.is_built(name):
                return ""
            crate, begun = self.crate(name, True), folder + f"/{name}.rlib"
            shutil.rmtree(begun, ignore_errors=True)
            # It has a foreign function, so it names something to link, which is never looked for.
            words = [f"{name}=//never" if it == f"{name}=" else it for it in self.words(crate, ["--jobs", "1", "--statements"])]
            status, said = self.run("build", words, ["-o", begun], crate.folder)
            if status:
                return said
            with open(f"{folder}/done", "w", encoding="utf-8"):
                return ""

    def run(self, verb, words, more, folder, output=subprocess.PIPE):
        how = {"cwd": folder, "stdin": subprocess.DEVNULL, "stdout": output, "stderr": subprocess.STDOUT, "errors": "replace"}
        ran = subprocess.run([*self.guard, self.kit.rtlib.RATTLE, verb, *words, *more], check=False, **how)
        return ran.returncode, ran.stdout

    def build_below(self, names, lanes):
        """Builds what is missing below these crates; returns whether all of it is there."""
        whole = lines_of_crates(self.top)
        uses = [low for it in names for low in whole[it].partition(":")[2].split() if low in self.lines]
        left = [it for it in dict.fromkeys(low for use in uses for low in (*self.below(use), use)) if not self.is_built(it)]
        faults, changed = {}, threading.Condition()

        def next_one():
            with changed:
                while left and not faults:
                    for it in left:
                        if all(map(self.is_built, self.below(it))):
                            left.remove(it)
                            return it
                    changed.wait()

        def work():
            for name in iter(next_one, None):
                fault = self.build(name)
                with changed:
                    faults.update({name: fault} if fault else {})
                    changed.notify_all()

        if left:
            self.tell(f"building {len(left)} bare libraries")
        threads = [threading.Thread(target=work) for _ in range(lanes)]
        for it in threads:
            it.start()
        for it in threads:
            it.join()
        for name, fault in faults.items():
            print(f"{name} with bare contracts is not built:\n{fault[-3000:]}", file=sys.stderr)
        return not faults
