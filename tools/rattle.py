"""How the scripts of this folder read the repository: its list of crates, sources, definitions and lemmas, and edits.

Sources and definitions are in the layout of `rt fmt`. Paths are relative to the top of the repository.
"""
import glob
import os
import pathlib
import re

ROOT = pathlib.Path(__file__).resolve().parent.parent


def read(path):
    """The text of a file."""
    with open(path, encoding="utf-8") as file:
        return file.read()


# The list of crates.


def dependencies(text):
    """The names after each crate of a text in the form of crates.txt, in its order."""
    return {crate: names.split() for crate, names in re.findall(r"^(\w+)[^:#\n]*:(.*)", text, re.M)}


def crates():
    """The crates of the repository and what each depends on."""
    return dependencies(read(ROOT / "crates.txt"))


def product():
    """The crates above the heading of the tests."""
    return dependencies(read(ROOT / "crates.txt").split("# Tests")[0])


def below(*wanted):
    """Some crates and those of the repository that they stand on, each after those that it stands on."""
    known, found = crates(), {}

    def add(names):
        for name in names:
            if name in known and name not in found:
                add(known[name])
                found[name] = None

    add(wanted)
    return [*found]


# Sources.

FUNCTION = re.compile(r"( *)(?:pub(?:\([a-z ]+\))? )?(?:(?:const|unsafe) )*fn (\w+)")


def sources_of(crate):
    """The paths of the sources of a crate, or of all where it is `*`."""
    return sorted(glob.glob(f"crates/{crate}/src/**/*.rt", recursive=True))


def code_of(text):
    """A source without comments and texts."""
    return re.sub(r'b?"(?:[^"\\]|\\.)*"|//[^\n]*', " ", text)


def split_tests(text):
    """What is before the tests of a source, and the tests."""
    at = re.search(r"#\[cfg\(test\)\]\s*(?:(?:pub )?mod\s+\w+\s*\{|(?:pub )?fn|const|use|struct)", text)
    return (text[: at.start()], text[at.start() :]) if at else (text, "")


class Exports:
    """The names that a crate exports, also by the crate or module that they come from, and its public modules."""

    def __init__(self, crate):
        text = code_of(read(f"crates/{crate}/src/lib.rt"))
        self.names, self.by_crate = set(), {}
        for source, inner in re.findall(r"pub use (?:(\w+)::)?[\w:]*?(\{[^}]*\}|\w+);", text):
            found = re.findall(r"\w+", inner)
            self.names.update(found)
            self.by_crate.setdefault(source, set()).update(found)
        self.modules = set(re.findall(r"pub mod (\w+);", text))

    def shows_all_of(self, path):
        """Whether the free functions of a file are public where it says so: in the root file, or in a public module."""
        return os.path.basename(path) == "lib.rt" or pathlib.Path(path).stem in self.modules


class Item:
    """A public type, impl, macro, constant or function of a source, with its comment. Of a constant or function of an
    impl or a trait, `owner` is the type or trait, and `outer` has the type parameters there."""

    def __init__(self, kind, name, doc, owner=None, outer=(), head="", wheres="", lines=()):
        self.kind, self.name, self.doc, self.owner, self.outer = kind, name, doc, owner, outer
        # The text after its name up to the contract, its bounds, and the lines of its fields or variants.
        self.head, self.wheres, self.lines = head, wheres, lines

    def can_refuse(self):
        """Whether it is a function that returns a `Result`."""
        return self.kind == "fn" and "Result<" in self.head.rpartition("->")[2]


class Block:
    """An impl or a trait: the type or trait whose public functions stand there, if any, and its type parameters."""

    def __init__(self, owner=None, outer=(), is_trait=False):
        self.owner, self.outer, self.is_trait = owner, outer, is_trait


HEAD_OF_BLOCK = re.compile(r"(pub )?(?:(impl)\b|(struct|enum|trait|type) (\w+)|macro_rules! (\w+))(.*)")
CONSTANT = re.compile(r"    pub const (\w+): (.*?) = ")
PUBLIC_FUNCTION = re.compile(r"(\s*)(pub )?(?:const )?fn (\w+)(.*)")


def items_of(path, exports, names):
    """The public items of a file: the types and traits among the names, with their functions and constants, the traits
    that are implemented for them, macros, and the free functions among the names, or all where the file shows all."""
    lines = split_tests(read(path))[0].splitlines()
    comment, block, at = [], Block(), 0
    while at < len(lines):
        line, at = lines[at], at + 1
        if line.strip().startswith("///"):
            comment.append(line.strip()[3:].strip())
            continue
        if line.strip().startswith(("#[", "ghost use")):
            continue
        doc, comment = comment, []
        if found := HEAD_OF_BLOCK.match(line):
            item, block = block_at(found, doc, lines, at, names)
            if item:
                yield item
        elif block.owner and (found := CONSTANT.match(line)):
            yield Item("const", found[1], doc, block.owner, block.outer, found[2])
        elif (found := PUBLIC_FUNCTION.match(line)) and (found[2] or (found[1] and block.is_trait)):
            head, wheres, at = head_of(found[4], lines, at)
            if found[1] and block.owner:
                yield Item("fn", found[3], doc, block.owner, block.outer, head, wheres)
            elif not found[1] and (exports.shows_all_of(path) or found[3] in names):
                yield Item("fn", found[3], doc, head=head, wheres=wheres)
        elif line.strip() and line != "}" and not line.startswith((" ", ")")):
            block = Block()


def block_at(found, doc, lines, at, names):
    """The item that a head begins, if it counts, and the block. The lines after the head go on from a line."""
    public, impl, kind, name, macro, rest = found.groups()
    if macro:
        return Item("macro", macro, doc), Block()
    if impl:
        outer, rest = generics(rest.split(" where ")[0].rstrip("{} ").strip())
        trait, _, of = rest.rpartition(" for ")
        base = re.match(r"(?:&(?:'\w+ )?(?:mut )?)?(?:\w+::)*(\w+)", of)[1]
        if trait or base not in names:
            return Item("impl", trait, doc, outer=outer, head=of) if trait and base in names else None, Block()
        return None, Block(base, outer)
    if not public or name not in names:
        return None, Block()
    end = lines.index("}", at) if lines[at - 1].endswith("{") else at
    item = Item(kind, name, doc, outer=generics(rest)[0], lines=lines[at:end])
    return item, Block(name, (), True) if kind == "trait" else Block()


def head_of(head, lines, at):
    """The head of a function, which begins with some text and goes on from a line: the text up to `where`, its contract
    or body, what follows `where`, and the line after both."""
    while not re.match(r"(requires|ensures|where|\{|\})", lines[at].strip()) and not head.endswith(("{", ";")):
        head += " " + lines[at].strip()
        at += 1
    wheres = ""
    if lines[at].strip() == "where":
        at += 1
        while not re.match(r"(requires|ensures|\{)", lines[at].strip()):
            wheres += " " + lines[at].strip()
            at += 1
    return head.rstrip("{; "), wheres, at


def split(text):
    """The parts between the outer commas."""
    parts, depth, part = [], 0, ""
    for char in re.sub("->", "→", text):
        depth += (char in "<([{") - (char in ">)]}")
        if char == "," and depth == 0:
            parts.append(part)
            part = ""
        else:
            part += char
    return [part.strip().replace("→", "->") for part in [*parts, part] if part.strip()]


def closing(text, start):
    """Where the bracket closes that opens at `start`."""
    depth = 0
    for at in range(start, len(text)):
        depth += (text[at] in "<([") - (text[at] in ")]" or (text[at] == ">" and text[at - 1] not in "-="))
        if depth == 0:
            return at
    raise ValueError(text)


def generics(text):
    """The parts of the list of type parameters that a text begins with, and what follows."""
    if not text.startswith("<"):
        return [], text
    end = closing(text, 0)
    return split(text[1:end]), text[end + 1 :].strip()


def function_at(lines, at):
    """The function that a line stands in: its name, its lines with its attributes, and those of its body. The body
    begins with the first line at the indentation of `fn` that ends in a brace, and ends before the next line there."""
    start = next((it for it in range(at, -1, -1) if FUNCTION.match(lines[it])), None)
    if start is None:
        return "", range(0), range(0)
    indentation, name = FUNCTION.match(lines[start]).groups()
    outer = [it for it in range(start, len(lines)) if re.match(indentation + r"\S", lines[it])]
    opens = next((it for it in outer if lines[it].endswith("{")), at)
    closes = next((it for it in outer if it > opens), opens)
    while lines[start - 1].startswith(f"{indentation}#["):
        start -= 1
    return name, range(start, closes + 1), range(opens, closes)


# Definitions and lemmas.

NAME = r"[^\s(){}\[\],;.:=]+"
# Files of these names declare nothing: they list files, or pass names on.
LISTS = ("Lib", "Prelude", "Common", "Lemmas")
DECLARED = re.compile(rf" *((?:(?:pub|abbrev|opaque|unfoldable|record|data) )*)({NAME})((?: [^=]*?)??) : (.*)")


def files_of(crate, part):
    """The paths of the files of `specs` or `proofs` that declare something, of a crate, or of all where it is `*`."""
    return [path for path in sorted(glob.glob(f"crates/{crate}/{part}/*.antt")) if pathlib.Path(path).stem not in LISTS]


def comment_at(lines, start):
    """The comment from a line on, without headings (`-- ---- reading`), and the line after it."""
    at, words = start, []
    while at < len(lines) and lines[at].strip().startswith("--"):
        if "---- " not in lines[at]:
            words.append(lines[at].strip().lstrip("-").strip())
        at += 1
    return " ".join(words), at


def without_comments(text):
    """The lines of a file of definitions or lemmas without comments."""
    return [re.sub(r"(^|\s)--.*", "", line) for line in text.splitlines()]


class Declaration:
    """A definition or a lemma of a file: the words before its name, its name, what stands before and after the colon,
    the heads of the modules that it stands in, and its first line."""

    def __init__(self, path, number, found, modules):
        self.path, self.number, self.modules = path, number, modules
        self.words, self.name, self.parameters, self.type = found.groups()

    def __str__(self):
        return f"{self.path}:{self.number}: {self.name}"


def declarations_of(path, text):
    """What a file declares, and for each line the declaration that it belongs to, or None."""
    declared, owners, owner, modules = [], [], None, [(-2, "")]
    lines = without_comments(text)
    for number, line in enumerate(lines, 1):
        indentation = len(line) - len(line.lstrip())
        while line.strip() and indentation <= modules[-1][0]:
            modules.pop()
        found = DECLARED.match(line)
        if re.match(r" *module ", line):
            modules.append((indentation, head_of_module(lines[number - 1 :])))
            owner = None
        elif re.match(r" *(pub )?(use|ruleset) ", line):
            owner = None
        elif found and indentation == modules[-1][0] + 2 and found[2] != "unfolding":
            owner = Declaration(path, number, found, [head for _, head in modules if head])
            declared.append(owner)
        owners.append(owner)
    return declared, owners


def head_of_module(lines):
    """What a module that these lines begin with supposes: the text between its name and `where`."""
    end = next(at for at, line in enumerate(lines) if re.search(r"\bwhere$", line.rstrip()))
    return " ".join(line.strip() for line in lines[: end + 1]).split(" ", 2)[2].removesuffix("where").strip()


# Edits.


class BadEdit(Exception):
    """Why an edit can't be made."""


class Edit:
    """An edit: the function that it names, if any, and the text before and after of each file that it changes."""

    def __init__(self, folder, file):
        self.label, self.function, self.texts = f"{folder.name}/{file.stem}", "", {}
        path = old = ""
        for word, _, rest in (line.partition(": ") for line in file.read_text().split("\n")):
            if word == "fn":
                self.function = rest
            elif word == "file":
                path = rest
                text = (folder / path).read_text()
                self.texts.setdefault(path, (text, text))
            elif word == "old":
                old = rest
            elif word == "new":
                before, after = self.texts[path]
                if after.count(old) != 1:
                    raise BadEdit(f"not once in {path}: {old}")
                self.texts[path] = before, after.replace(old, rest)
        if all(before == after for before, after in self.texts.values()):
            raise BadEdit("it changes nothing")


class WrongBody(Edit):
    """An edit of one body: its file, the lines of its function, and those that it changes."""

    def __init__(self, folder, file):
        super().__init__(folder, file)
        (self.path, (before, after)), *others = self.texts.items()
        lines = before.split("\n")
        self.lines = {at: new for at, (old, new) in enumerate(zip(lines, after.split("\n"))) if old != new}
        name, self.span, body = function_at(lines, min(self.lines))
        if others or not self.lines.keys() <= {*body} or name != self.function.split("::")[-1]:
            raise BadEdit(f"what it changes isn't the body of {self.function}")

    def has(self, place):
        """Whether a line of a file, or a function as a log names it, is of its function or a closure there."""
        if isinstance(place, tuple):
            return place[0] == self.path and place[1] in self.span
        parts = [it.lstrip("+") for it in re.split("::|/", place) if it != "fn"]
        return f"{'::'.join(parts)}::".startswith(f"{self.function}::")


def edits_of(folder, part):
    """The edits of a crate in must-fail/ or wrong-bodies/, and why the others can't be made, by their labels."""
    edits, faults = [], {}
    for file in sorted(folder.glob(f"{part}/*.edit")):
        kind = WrongBody if part == "wrong-bodies" or "\nfn: " in file.read_text() else Edit
        try:
            edits.append(kind(folder, file))
        except (BadEdit, OSError, KeyError, ValueError) as why:
            faults[f"{folder.name}/{file.stem}"] = f"BAD EDIT: {why}"
    return edits, faults
