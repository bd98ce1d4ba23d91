"""Which statements of the crates below a crate's text reaches by name.

Statements are the parts of specs and of sources that other crates can rest on, cut at empty lines: definitions, items, members of an impl or a
trait. A part is reached if a name that it defines is written, under its import, in the crate's own text or in a part that is reached; a member
of a type or trait of this repository, if its name is written anywhere there and its type or trait is reached. So a statement that no text
names, however far below, asks for no new try of an edit; a function that is a member is named if it is written with its arguments or after `::`,
as no field is. No other crate can name the private fields of a type, nor, if it has no public one,
its model's view and invariant; these count in the crate itself alone."""
import collections
import re

from wrong_bodies.edits import without_parameters

WORD = re.compile(r"[^\s(){}\[\],.;:`'\"λ→×]+")
VISIBLE = r"(?:pub(?:\([^)]*\))? )?"
ITEM = re.compile(VISIBLE + r"(?:const |unsafe |ghost )*(fn|struct|enum|union|trait|const|static|type|macro_rules!) (\w+)")
IMPL = re.compile(r"(?:unsafe )?impl\b(.*)")
TRAIT = re.compile(VISIBLE + r"trait (\w+)")
KEYWORDS = {"abbrev", "unfoldable", "opaque", "pub", "record", "data", "where", "infix", "infixl", "infixr"}
PATH = re.compile(r"\b([a-z]\w*)::(\w+)")
USE = re.compile(r"^\s*" + VISIBLE + r"(?:ghost )?use ([^;]*?)(?:;|$)", re.M)
CALL = re.compile(r"::\s*(\w+)|\b(\w+)(?=\(|::<)")
# Before a member's name, which is looked up in each crate, before that of a function, and before the crate of a name that no import has.
ANYWHERE, CALLED, OWN = "?", "!", "="
# Before the name of a function that is no member: code alone names it, and a definition may have the same name.
FUNCTION = "fn "
Part = collections.namedtuple("Part", "crate needs names text")


def words_of(text):
    """The names that a text writes; of an operator's name `◌+◌` its letters between the places too."""
    return {piece for word in WORD.findall(text) for piece in (word, *(word.split("◌") if "◌" in word else ())) if piece}


class File:
    """A file's imports: by which name it writes what of which crate."""

    def __init__(self, crate, text, is_source):
        self.crate, self.is_source, self.imports, self.of_code = crate, is_source, {}, set()
        for said in USE.findall(re.sub(r"\s*\n\s+(?=[\w◌}])", " ", text)):
            path, _, group = said.partition("{")
            steps = re.split(r"\.|::", path.strip(" .:"))
            if not group:
                group = steps.pop()
            of = steps[1] if steps and steps[0] == "Rattle" and len(steps) > 1 else steps[0] if steps else ""
            of = crate if of in ("crate", "super", "self") else of
            # A lemma is no statement, so its name is looked up nowhere else.
            of = OWN + of if "proofs" in steps[2:3] else of
            for name in re.split(r"[,{}]|::", group):
                old, _, new = name.strip().partition(" as ")
                for it, is_it in zip(words_of(new or old), words_of(old)) if not new else [(new.strip(), old.strip())]:
                    self.imports[it] = (of, is_it)
                    if steps[:1] != ["Rattle"]:
                        self.of_code.add(it)

    def names(self, text):
        """What a text of this file names."""
        found = set()
        for word in words_of(text):
            found.add(self.imports.get(word, (OWN + self.crate, word)))
            if self.is_source:
                found.add((ANYWHERE, word))
            if word in self.of_code:
                crate, name = self.imports[word]
                found.add((crate, FUNCTION + name))
        if not self.is_source:
            return found
        # Calls, and paths like `line_text::Line`.
        paths = PATH.findall(text)
        return found | {(CALLED, path or name) for path, name in CALL.findall(text)} | {*paths} | {(of, FUNCTION + name) for of, name in paths}


def file_of(crate, lines, is_source):
    """A file by its lines: in specs and proofs an import is one line."""
    return File(crate, "\n".join(lines if is_source else (it for it in lines if it.startswith(("use ", "pub use ")))), is_source)


def groups(lines):
    """Runs of lines between empty ones."""
    group = []
    for line in [*lines, ""]:
        if line.strip():
            group.append(line)
        elif group:
            yield group
            group = []


def spec_parts(crate, lines):
    """The definitions of a file of specs."""
    file = file_of(crate, lines, False)
    for group in groups(lines):
        kept = [line for line in group if not re.match(r"(pub )?(use|mod) ", line)]
        defined = set()
        for line in kept:
            # A signature, an equation or a constructor. A record's field is reached by the record.
            if not line.startswith(" ") or re.match(r"\s+(?:pub )?[A-Z]\S* : ", line):
                defined |= words_of(next((word for word in WORD.findall(line) if word not in KEYWORDS), "")) - {"◌"}
        if defined:
            text = "\n".join(kept)
            yield Part(crate, [((crate, name),) for name in sorted(defined)], file.names(text), text)


def items(lines):
    """The items of a source, each after the head of the impl or trait that it is a member of."""
    head = []
    for group in groups(lines):
        begins = next((it for it in group if not it.startswith(("#", " ", "}"))), "")
        if group[0].startswith(" "):
            yield head, group
            continue
        head, at = [], group.index(begins) if begins else 0
        if IMPL.match(begins) or TRAIT.match(begins):
            end = next((k for k in range(at, len(group)) if group[k].endswith(("{", "}"))), len(group) - 1)
            head = group[at:end + 1]
            yield head, head
            group = group[end + 1:]
        if group:
            yield head, group


def owners(head):
    """The trait and the type that an impl's head names; of a trait's head the trait alone."""
    said = " ".join(it.strip() for it in head)
    trait = TRAIT.match(said)
    if trait:
        return trait[1], None
    of, _, type = without_parameters(IMPL.match(said)[1].strip()).split(" where ")[0].rpartition(" for ")
    first, second = (re.match(r"&?(?:'\w+ )?(?:mut )?(?:\w+::)*(\w*)", it.strip())[1] for it in (of, type))
    return first or None, second or None


def source_parts(crate, traits, lines):
    """The items of a source. `traits` are those of this repository, whose members are called by their names."""
    file, open_types = file_of(crate, lines, True), types_with_public_fields(lines)
    for head, group in items(lines):
        group = [line for line in without_tactics(group) if not USE.match(line) and not re.match(VISIBLE + r"mod |\s*}$", line)]
        named = [ITEM.match(line.strip()) for line in group]
        kinds = {it[2]: it[1] for it in named if it}
        named = [it[2] for it in named if it]
        if not head:
            text = "\n".join(public_lines(group))
            if named:
                defined = named + (variants(group) if any("enum " in line for line in group) else [])
                defined = [FUNCTION + it if kinds.get(it) == "fn" else it for it in defined]
                yield Part(crate, [((crate, name),) for name in defined], file.names(text), text)
            continue
        if group == head and re.fullmatch(r"impl \w+ {", head[0]):
            continue
        trait, type = owners(head)
        hides = trait == "Model" and type not in open_types
        text = "\n".join(line for line in group if "ghost Value" in line or not hides)
        of_std = trait and type and trait not in traits
        # An impl for a parameter, or for a type like `u32`, is reached by its trait.
        at = type if type and len(type) > 1 and not type[0].islower() else trait
        at = file.imports.get(at, (crate, at))
        if named and group is not head and not of_std:
            needs = [(at, (CALLED if kinds[name] == "fn" else ANYWHERE, name)) for name in named]
        else:
            needs = [(at,)]
        if text:
            yield Part(crate, needs, file.names("\n".join([*head, text])), text)


def types_with_public_fields(lines):
    return {it[1] for it in re.findall(VISIBLE + r"(struct) (\w+)[^{};]*\{\n(?:    .*\n)*?    pub ", "\n".join(line for line in lines if line))}


def without_tactics(group):
    """All lines but attributes that say how a function is proved or compiled."""
    kept, depth = [], 0
    for line in group:
        if depth or re.match(r"\s*#\[(tactic|inline|cold)", line):
            depth += line.count("[") - line.count("]")
        else:
            kept.append(line)
    return kept


def variants(group):
    return [it[1] for it in (re.match(r"    ([A-Z]\w*)", line) for line in group) if it]


def public_lines(group):
    """Of a struct with named fields all but the private ones."""
    at = next((k for k, line in enumerate(group) if re.match(VISIBLE + "struct", line)), None)
    if at is None:
        return group
    kept, is_kept = [], True
    for line in group[at + 1:]:
        if re.match(r"    \S", line):
            is_kept = line.startswith(("    pub ", "    #", "    where"))
        elif not line.startswith(" "):
            is_kept = True
        kept += [line] if is_kept else []
    return group[:at + 1] + kept


class Reach:
    """The parts of all crates, and by which names each is reached."""

    def __init__(self, parts, below):
        self.parts, self.below = parts, below
        self.at, self.definers = collections.defaultdict(list), collections.defaultdict(set)
        for number, part in enumerate(parts):
            for needs in part.needs:
                self.definers[needs[0][1]].add(needs[0][0])
                for name in needs:
                    self.at[name].append((number, needs))
        self.meant = {}

    def resolve(self, name):
        """Where a name is defined: in the crate of its import, or in those below that crate, which passes it on."""
        if name not in self.meant:
            crate, word = name
            if crate.startswith(OWN):
                self.meant[name] = ((crate[1:], word),)
            elif crate in (ANYWHERE, CALLED) or word not in self.definers or crate in self.definers[word]:
                self.meant[name] = (name,)
            else:
                self.meant[name] = tuple((it, word) for it in self.definers[word] if it in self.below.get(crate, ()))
        return self.meant[name]

    def of(self, names, crates):
        """The parts of these crates that are reached from these names."""
        known, found = {it for name in names for it in self.resolve(name)}, set()
        todo = list(known)
        while todo:
            for number, needs in self.at.get(todo.pop(), ()):
                part = self.parts[number]
                if number in found or part.crate not in crates or not known.issuperset(needs):
                    continue
                found.add(number)
                new = {it for name in part.names for it in self.resolve(name)} - known
                known |= new
                todo += new
        return [self.parts[number] for number in sorted(found)]
