"""Reads the tree for `.ci/listings`: the layers of crates.txt, and the items of Rattle sources and of definition modules."""

import os
import re
from functools import lru_cache

TOP = os.path.normpath(os.path.join(os.path.dirname(os.path.abspath(__file__)), ".."))
NAME = r"[^\W\d]\w*"


@lru_cache(maxsize=None)
def text_of(path):
    """The text of a file, by its path from the top of the repository."""
    with open(os.path.join(TOP, path), encoding="utf-8") as file:
        return file.read()


@lru_cache(maxsize=None)
def layers():
    """Each layer of crates.txt: its comment, and its crates with the crates that they depend on."""
    found = []
    for line in text_of("crates.txt").split("\n")[1:]:
        row, _, comment = (part.strip() for part in line.partition("#"))
        if comment and not row:
            found.append((comment, {}))
        elif row:
            name, _, below = row.partition(":")
            found[-1][1][name.split()[0]] = below.split()
    return found


@lru_cache(maxsize=None)
def crates():
    """The names of all crates, in the order of crates.txt."""
    return [name for _, rows in layers() for name in rows]


@lru_cache(maxsize=None)
def files_below(root, ending):
    """The files below a folder with this ending, without those that the toolchain makes."""
    found = []
    for folder, folders, files in os.walk(os.path.join(TOP, root)):
        folders[:] = sorted(it for it in folders if it != "out")
        found += [os.path.relpath(os.path.join(folder, it), TOP) for it in sorted(files) if it.endswith(ending)]
    return found


def root_of(crate):
    """The file that a crate begins with."""
    names = (f"crates/{crate}/src/{name}" for name in ("lib.rt", "main.rt"))
    return next(name for name in names if os.path.isfile(os.path.join(TOP, name)))


@lru_cache(maxsize=None)
def modules(crate):
    """The modules of src/ (without the root), specs/ and proofs/ (without Lib), as (kind, name, path)."""
    found = []
    for path in files_below(f"crates/{crate}/src", ".rt"):
        name = path.split("/src/")[1][:-3].replace("/", "::")
        if name not in ("lib", "main"):
            found.append(("src", name, path))
    for kind in ("specs", "proofs"):
        for path in files_below(f"crates/{crate}/{kind}", ".antt"):
            name = path.split(f"/{kind}/")[1][:-5]
            if "/" not in name and name != "Lib":
                found.append((kind, name, path))
    return found


def first_sentence(lines):
    """The first sentence of the comment that these lines begin with."""
    words = []
    for line in lines:
        comment = re.match(r"\s*(?://[/!]?|--) (\S.*)$", line)
        if not comment:
            break
        words.append(comment.group(1).rstrip())
    return re.split(r"(?<=\.)\s", " ".join(words))[0]


def closing(text, at):
    """The place after the bracket that closes the one at this place; strings, characters and comments are skipped."""
    depth = 0
    skipped = re.compile(r'//[^\n]*|"(?:[^"\\]|\\.)*"|b?\'(?:[^\'\\\n]|\\.)\'')
    while at < len(text):
        skip = skipped.match(text, at)
        if skip:
            at = skip.end()
            continue
        depth += text[at] in "({["
        depth -= text[at] in ")}]"
        at += 1
        if depth == 0:
            return at
    return at


class Function:
    """A function of a source: where it is, its signature, its first sentence, and its clauses."""

    def __init__(self, path, line, owner, name, public):
        self.path, self.line, self.owner, self.name, self.public = path, line, owner, name, public
        self.sentence, self.signature, self.clauses, self.attributes = "", "", [], ""

    def full_name(self):
        return f"{self.owner}::{self.name}" if self.owner else self.name

    def labels(self):
        return [label for _, label, _ in self.clauses if label]


def read_clauses(text, at):
    """The clauses that begin at this place, each with its kind, its label and its text."""
    found = []
    clause = re.compile(r"(?:\s|//[^\n]*\n)*\b(requires|ensures)\b\s*(" + NAME + r")?\s*(?=\{)")
    while True:
        match = clause.match(text, at)
        if not match:
            return found
        end = closing(text, match.end())
        found.append((match.group(1), match.group(2) or "", " ".join(text[match.end() + 1:end - 1].split())))
        at = end


def comment_before(lines, at):
    """The first sentence of the `///` comment before a line; attributes may stand between them."""
    while at > 0 and re.match(r"\s*(#\[|\)\]|//(?!/))", lines[at - 1]):
        at -= 1
    begin = at
    while begin > 0 and re.match(r"\s*///", lines[begin - 1]):
        begin -= 1
    return first_sentence(lines[begin:at])


def signature_end(text, at):
    """Where a signature ends: before its first clause, its body or its semicolon."""
    while at < len(text):
        if text[at] in "([":
            at = closing(text, at)
        elif text[at] in "{;" or re.match(r"\b(requires|ensures)\b", text[at:at + 8]):
            return at
        else:
            at += 1
    return at


OWNER = re.compile(r"^(?:unsafe )?(pub(?:\([^)]*\))? )?(?:(impl)\b(?:<.*?>(?=\s))?\s+(?:(.+?)\s+for\s+)?(" + NAME + r")|(trait)\s+(" + NAME + r"))")
FUNCTION = re.compile(r"^( *)(pub(?:\([^)]*\))? )?(?:const |unsafe )*fn (" + NAME + ")")


@lru_cache(maxsize=None)
def functions(path):
    """All functions of a source, those of implementations and traits too."""
    text = text_of(path)
    lines = text.split("\n")
    found, owner, of_trait, at = [], "", False, 0
    for number, line in enumerate(lines):
        opened = OWNER.match(line)
        if opened:
            owner = opened.group(4) or opened.group(6)
            of_trait = bool(opened.group(3) or opened.group(5))
        elif line.startswith("}"):
            owner, of_trait = "", False
        match = FUNCTION.match(line)
        if match and (match.group(1) == "") == (owner == ""):
            public = bool(match.group(2)) and "(" not in match.group(2) or of_trait
            item = Function(path, number + 1, owner, match.group(3), public)
            begin = at + match.start(3)
            end = signature_end(text, begin)
            bare = re.sub(r"//[^\n]*", "", text[begin:end])
            item.signature = "fn " + " ".join(bare.split()).replace("( ", "(").replace(",)", ")").replace(", )", ")")
            item.clauses = read_clauses(text, end)
            item.sentence = comment_before(lines, number)
            item.of_trait = of_trait
            found.append(item)
        at += len(line) + 1
    return found


TYPE = re.compile(r"^(?:pub(?:\([^)]*\))? )(struct|enum|trait|type|const) (" + NAME + r")(.*)$")


@lru_cache(maxsize=None)
def types(path):
    """The public types, traits and constants of a source: name -> (kind, line, sentence, first line, block)."""
    text = text_of(path)
    lines = text.split("\n")
    found = {}
    for number, line in enumerate(lines):
        match = TYPE.match(line)
        if match:
            end = next((i for i in range(number, len(lines)) if lines[i].startswith("}") or lines[i].rstrip().endswith(";") and i == number), number)
            shown = line.strip().rstrip("{;").strip()
            found[match.group(2)] = (match.group(1), number + 1, comment_before(lines, number), shown, "\n".join(lines[number:end + 1]))
    return found


@lru_cache(maxsize=None)
def exports(crate):
    """The names that a library gives, with the path of each: the crate's own source, or None where another crate has it."""
    path = root_of(crate)
    own = {name for kind, name, _ in modules(crate) if kind == "src"}
    found = {}
    for item in re.findall(r"^pub use ([^;]+);", text_of(path), flags=re.MULTILINE):
        head, _, names = " ".join(item.split()).partition("{")
        names = names.rstrip("}") if names else head.rpartition("::")[2]
        module = head.rstrip(":") if "{" in item else head.rpartition("::")[0]
        module = re.sub(r"^(crate|self)::", "", module)
        for name in (it.strip() for it in names.split(",")):
            if name:
                found[name.split(" as ")[-1].strip()] = (module, module in own)
    return found


DEFINED = re.compile(r"^(\s*)(?:(abbrev|unfoldable)\s+)?(pub\s+)?(?:(record|data)\s+)?([^\s:(){}]+)")


@lru_cache(maxsize=None)
def definitions(path):
    """The definitions of a module: name -> (line, text without comments)."""
    found, name = {}, None
    for number, line in enumerate(text_of(path).split("\n")):
        bare = re.sub(r"(^|\s)--.*$", "", line)
        match = DEFINED.match(bare)
        named = match and match.group(5) not in ("use", "mod", "module") and (
            match.group(2) or match.group(4) or (match.group(3) and match.group(1) == ""))
        if named:
            name = match.group(5)
            found[name] = (number + 1, [])
        elif bare and (not bare[0].isspace()) and re.match(r"(pub )?(use|mod|module)\b", bare):
            name = None
        if name and bare.strip():
            found[name][1].append(bare)
    return {name: (line, "\n".join(lines)) for name, (line, lines) in found.items()}


@lru_cache(maxsize=None)
def imports(path):
    """What a module or a source calls the names of other modules: name -> (crate, kind, module, name there or None)."""
    found = {}
    for target in re.findall(r"^\s*(?:ghost |pub )?use Rattle\.([^\n;]+?);?\s*(?:--.*)?$", text_of(path), flags=re.MULTILINE):
        whole = re.match(r"([\w.]+?)(?:\.\{(.*)\}| as (" + NAME + r"))?$", target.strip())
        if not whole:
            continue
        crate, _, rest = whole.group(1).partition(".")
        kind, _, module = rest.partition(".")
        if module.startswith("declared."):
            kind, module = "declared", module[9:]
        if whole.group(2) is not None:
            for name in (it.strip() for it in whole.group(2).split(",")):
                there, _, here = name.partition(" as ")
                found[(here or there).strip()] = (crate, kind, module, there.strip())
        else:
            found[whole.group(3) or module.rpartition(".")[2]] = (crate, kind, module, None)
    return found
