"""Which definitions the public contracts cite, and which definitions these stand on: read from the sources alone.

A name is a triple of the crate, the file in its `specs/` and the definition. What a crate exports is what its `lib.rt` does:
functions, modules, and types with their public methods; traits with every method and member. Of what an exported type is for a
trait of these crates, all counts; of its model the value alone, since the view and the invariant speak of fields that nobody
outside sees. A condition that a field of an exported type keeps (`ghost NAME: {..}`) is seen from outside.
"""
import pathlib
import re

# A name of the logic, with the names behind its periods.
WORD = re.compile(r"[^\s(){}\[\],;.λ]+(?:\.[^\s(){}\[\],;.λ]+)*")
GHOST_USE = re.compile(r"\buse\s+Rattle\.([\w.]+?)(?:\.\{([^}]*)\}|\s+as\s+(\w+))?\s*(?:;|$)", re.M)
CLAUSE = re.compile(r"\b(?:requires|ensures)\b\*?\s*\w*\s*$")
DEFINED = re.compile(r"(?m)^(?: *(?:abbrev |unfoldable )pub | *pub (?P<kind>record|data) |pub (?!mod|use))(?P<name>[^\s:(){}]+)(?= )")
REEXPORT = re.compile(r"(?m)^pub use Rattle\.(\w+)\.specs\.(\w+)\.\{([^}]*)\}")
CONSTRUCTOR = re.compile(r"(?m)^\s+([A-Z]\w*) :")
# The one member of a model that a caller reads.
MODEL_VALUE = "Value"


def blanked(text):
    """The text with its comments, strings and characters as blanks, each in its place."""
    pattern = r'//[^\n]*|"(?:\\.|[^"\\])*"|b?\'(?:\\.|[^\'\\\n])\''
    return re.sub(pattern, lambda found: re.sub(r"[^\n]", " ", found.group()), text)


def without_generics(head):
    """The head of a declaration without what stands in angle brackets."""
    head = head.replace("->", "  ")
    while "<" in head and ">" in head:
        shorter = re.sub(r"<[^<>]*>", " ", head)
        if shorter == head:
            break
        head = shorter
    return head


def closing(text, begin):
    """The place behind the bracket that closes the one at `begin`."""
    depth = 0
    for place in range(begin, len(text)):
        depth += (text[place] in "{([") - (text[place] in "})]")
        if depth == 0:
            return place + 1
    return len(text)


def imports(text, crates):
    """The names that the `use` lines of a text bring in, each with the definition that it stands for; and the files that have a
    short name."""
    names, files = {}, {}
    for path, listed, short in GHOST_USE.findall(text):
        parts = path.split(".")
        if len(parts) != 3 or parts[1] != "specs" or parts[0] not in crates:
            continue
        for item in (listed or "").split(","):
            name, _, other = item.strip().partition(" as ")
            if name:
                names[(other or name).strip()] = (parts[0], parts[2], name.strip())
        if short:
            files[short] = (parts[0], parts[2])
    return names, files


def cited(term, names, files):
    """The definitions that a term of the logic names, by these imports."""
    bound = {word for binder in re.findall(r"λ([^.]*)\.", term) for word in re.findall(r"[^\s():]+", binder.split(":")[0])}
    term = re.sub(r"λ[^.]*\.\s", " ", term)
    term = re.sub(r"[^\s(){};,]+\s+=(?=\s)", " ", term)  # the labels of a record
    found = set()
    for word in WORD.findall(term):
        first, *rest = word.split(".")
        if first in names and first not in bound:
            found.add(names[first])
        elif first in files and rest:
            found.add((*files[first], rest[0]))
    return found


class Exports:
    """What the `lib.rt` of a crate exports: names by their kind of declaration, found in any of its files."""

    def __init__(self, source):
        self.source = source
        text = blanked((source / "lib.rt").read_text())
        self.names, self.modules = set(), set(re.findall(r"(?m)^pub mod (\w+);", text))
        for path, listed in re.findall(r"(?m)^pub use ([\w:]+?)(?:::\{([^}]*)\})?;", text):
            words = listed.split(",") if listed else [path.split("::")[-1]]
            self.names |= {word.strip().split(" as ")[-1] for word in words if word.strip()}
        self.files = [path for path in sorted(source.rglob("*.rt")) if "tests" not in path.relative_to(source).with_suffix("").parts]

    def exports_all(self, path):
        """Every public function of this file is exported: it stands in `lib.rt` or in a public module."""
        place = path.relative_to(self.source).with_suffix("").parts
        return place == ("lib",) or place[0] in self.modules


class Contracts:
    """The definitions that the exported contracts of one crate cite, each with a place that cites it. `calls`: each exported
    function, but for those of an `impl` of a trait, with what it hands back and the names of what it ensures."""

    def __init__(self, crate, folder, crates, traits):
        self.crate, self.crates, self.traits, self.found, self.calls = crate, crates, traits, {}, {}
        self.exports = Exports(folder / "src")
        for path in self.exports.files:
            self.read(path)

    def read(self, path):
        self.path = path
        text = blanked(path.read_text())
        self.block(text, 0, len(text), {}, {}, self.exports.exports_all(path), "file")

    def add(self, term, names, files, what):
        for definition in cited(term, names, files):
            self.found.setdefault(definition, f"{self.crate}::{what}")

    def block(self, text, begin, end, names, files, whole, kind, owner=""):
        """Reads the declarations between two places. `whole`: public functions there are exported. `kind`: 'file'; 'type', the
        methods of an exported type; 'model'; 'trait', of which each function and member is public; 'kit', a trait of the kit,
        of which each function is."""
        inside = flat(text, begin, end)
        more_names, more_files = imports(inside, self.crates)
        names, files = {**names, **more_names}, {**files, **more_files}
        place = begin
        opening = re.compile(r"(?m)^\s*(?:#\[[^\n]*\]\s*)*(?P<pub>pub(?:\([a-z]+\))? )?(?:unsafe |const )*(?P<what>fn|struct|enum|trait|impl|mod|ghost)\b(?P<rest>[^\n{;]*)")
        while True:
            found = opening.search(text, place, end)
            if not found:
                return
            public = found["pub"] == "pub "
            what = found["what"]
            if what == "fn":
                place = self.function(text, found, names, files, public, whole, kind, owner)
                continue
            body = re.compile(r"[{;]").search(text, found.end("what"), end)
            if not body:
                return
            place = closing(text, body.start()) if body.group() == "{" else body.end()
            if what == "ghost":
                self.member(text, found, place, names, files, kind, owner)
            elif what in ("struct", "enum", "trait", "impl"):
                self.declaration(text, what, text[found.end("what"):body.start()], body.start(), place, names, files, public, whole)

    def declaration(self, text, what, head, begin, end, names, files, public, whole):
        if text[begin] != "{":
            return
        head = without_generics(head)
        if what == "impl":
            trait, _, of = head.rpartition(" for ")
            name = re.match(r"\s*([\w:]+)", of or head)[1].split("::")[-1]
            trait = re.match(r"\s*([\w:]+)", trait)[1].split("::")[-1] if trait else ""
            if name not in self.exports.names:
                return
            kind = "type" if not trait else "model" if trait == "Model" else "trait" if trait in self.traits else "kit"
            self.block(text, begin + 1, end - 1, names, files, True, kind, name)
        elif public:
            name = re.match(r"\s*(\w+)", head)[1]
            if name in self.exports.names or whole:
                self.block(text, begin + 1, end - 1, names, files, True, "trait", name)

    def member(self, text, found, end, names, files, kind, owner):
        name = re.match(r"\s*(\w+)", found["rest"] or "")
        if not name or name[1] == "use" or kind in ("file", "type", "kit"):
            return
        if kind == "model" and name[1] != MODEL_VALUE:
            return
        self.add(text[found.end():end], names, files, f"{owner}, {name[1]}")

    def function(self, text, found, names, files, public, whole, kind, owner):
        name = re.match(r"\s*(\w+)", found["rest"])[1]
        exported = kind in ("trait", "kit") or (public and kind == "type")
        exported = exported or (public and kind == "file" and (whole or name in self.exports.names))
        place, clauses, heads = found.end("what"), [], []
        while place < len(text):
            if text[place] in "([":
                place = closing(text, place)
            elif text[place] == ";":
                place += 1
                break
            elif text[place] == "{":
                end = closing(text, place)
                is_clause = CLAUSE.search(text, found.start(), place)
                if not is_clause:
                    heads.append((place, None))
                    place = end
                    break
                heads.append((is_clause.start(), is_clause.group()))
                clauses.append(text[place:end])
                place = end
            else:
                place += 1
        if exported:
            what = f"{owner}::{name}" if owner else name
            for clause in clauses:
                self.add(clause, names, files, what)
            if kind in ("file", "type") or (kind == "trait" and owner in self.traits):
                head = text[found.end("what"):heads[0][0] if heads else place]
                self.calls[what] = (head.rpartition("->")[2], [label for _, label in heads if label])
        return place


def flat(text, begin, end):
    """The text between two places without what stands in braces, but for the lists of `use` lines."""
    out, place = [], begin
    while place < end:
        if text[place] == "{":
            behind = closing(text, place)
            out.append(text[place:behind] if text[place - 1] == "." else " ;\n")
            place = behind
        else:
            out.append(text[place])
            place += 1
    return "".join(out)


class Definitions:
    """The definitions of the crates. `uses`: each with those that its text names. `lines`: each with how many lines it has that
    are neither blank nor comments. `titles`: each file with the first sentence of the comment that it begins with."""

    def __init__(self, crates, folder):
        # `other`: a name that stands for a definition of another file, or for the type that it constructs.
        self.uses, self.other, self.lines, self.titles = {}, {}, {}, {}
        named = {}
        for crate in crates:
            for path in sorted((folder / crate / "specs").glob("*.antt")):
                if path.stem != "Lib":
                    named.update(self.read(crate, path, crates))
        for definition, others in named.items():
            self.uses[definition] = {self.whole(other) for other in others} - {definition}

    def read(self, crate, path, crates):
        whole = path.read_text()
        self.titles[(crate, path.stem)] = title(whole)
        text = re.sub(r"(?m)--.*$", "", whole)
        for of, file, listed in REEXPORT.findall(text):
            for name in listed.split(","):
                self.other[(crate, path.stem, name.strip())] = (of, file, name.strip())
        names, files = imports(text, crates)
        begins = list(DEFINED.finditer(text))
        names |= {found["name"]: (crate, path.stem, found["name"]) for found in begins}
        named = {}
        for found, after in zip(begins, begins[1:] + [None]):
            block = text[found.start():after.start() if after else len(text)]
            definition = (crate, path.stem, found["name"])
            named[definition] = cited(block, names, files)
            self.lines[definition] = sum(1 for line in block.split("\n") if line.strip())
            if found["kind"] == "data":
                self.other |= {(crate, path.stem, name): definition for name in CONSTRUCTOR.findall(block)}
        return named

    def whole(self, definition):
        """The definition that a name stands for."""
        while definition in self.other:
            definition = self.other[definition]
        return definition

    def reached(self, begin):
        """These definitions, and all that they stand on."""
        found, waiting = set(begin), list(begin)
        while waiting:
            new = self.uses.get(waiting.pop(), set()) - found
            found |= new
            waiting += new
        return found


def title(text):
    """The first sentence of the comment that a file begins with."""
    comment = re.match(r"(?:--.*\n)*", text).group()
    words = " ".join(line.lstrip("-").strip() for line in comment.split("\n"))
    return re.split(r"(?<=\.) (?=[A-Z])", words)[0].strip()


def clause(path, name, crates):
    """The definitions that one clause of a file of code cites."""
    text = blanked(path.read_text())
    begin = text.index("{", re.search(rf"\bensures {name} ", text).end())
    names, files = imports(text, crates)
    return cited(text[begin:closing(text, begin)], names, files)


def read(crates, folder):
    """The contracts of each crate that exports any."""
    traits = {name for path in folder.glob("*/src/**/*.rt") for name in re.findall(r"(?m)^pub trait (\w+)", path.read_text())}
    return [Contracts(crate, folder / crate, crates, traits) for crate in crates if (folder / crate / "src" / "lib.rt").exists()]


def contracts(crates, folder, definitions):
    """Each definition that an exported contract of some crate cites, with a place that cites it."""
    found = {}
    for contract in read(crates, folder):
        for definition, place in contract.found.items():
            found.setdefault(definitions.whole(definition), place)
    return found


def calls(crates, folder):
    """Each exported function, by its crate and its name: the type that it hands back, and the names of the clauses of what it
    ensures, of which one without a name is ''."""
    found = {}
    for contract in read(crates, folder):
        for name, (back, labels) in contract.calls.items():
            ensures = [re.search(r"ensures\*?\s*(\w*)", label)[1] for label in labels if "ensures" in label]
            found[(contract.crate, name)] = (back, ensures)
    return found
