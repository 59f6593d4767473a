"""The names that pages may speak of: those of the sources of the crates and of their definitions, and crates, libraries and files.

Sources and definitions are in the formatter's layout: a struct, an enum, an impl or a trait ends at the first line that begins with a brace, and
definitions stand in blocks of their own.
"""

import re

from built import CRATES, ROOT
from edit_functions import BLOCK, end_of, last_name, without_parameters
from refusal_places import CONTRACT, body_start, without_comments

# What a source file declares beside functions.
ITEM = re.compile(r"(?m)^ *(?:pub(?:\([^)]*\))? )?(?:struct|enum|trait|type|const) (\w+)")

FUNCTION = re.compile(r"(?m)^ *(?:pub(?:\([^)]*\))? )?(?:const |extern \S+ )?fn (\w+)")

PUBLIC = re.compile(r"(?m)^( *)(pub )?(?:const |extern \S+ )?fn \w+")

FIELDS = re.compile(r"(?m)^(?:pub(?:\([^)]*\))? )?(?:struct|enum) (\w+)[^;{\n]*\{$")

# A field of a struct, or a variant of an enum.
FIELD = re.compile(r"(?m)^    (?:pub(?:\([^)]*\))? )?(?:ghost )?(\w+)(?=[:,({]| [={])")

ALIAS = re.compile(r"(?m)^pub type (\w+)[^=]*= (\w+)<")

# The head of a block of definitions, and a case of its data or a field of its record.
HEAD = re.compile(r"^(?:abbrev |unfoldable )?(?:pub )?(?:record |data )?([^\s:(]+)(?= )")

CASE = re.compile(r"(?m)^  (?:pub )?(\w+)(?: [^:]*)? :")

IMPORT = re.compile(r"(?m)^ *(?:ghost |pub )?use Rattle\.(\w+)\.specs\.([\w.]+)\.\{([^}]*)\}")


def definitions(text):
    """The names that a file of definitions declares, each with the definition that it belongs to: itself, or that of which it is a case or field."""
    found = {}
    for block in re.split(r"\n\s*\n", re.sub(r"(?m)^(?: *--| *module _).*\n", "", text)):
        head = HEAD.match(block.strip())
        if head and not block.strip().startswith(("use ", "pub use ", "pub mod ")):
            for name in [*CASE.findall(block), head[1]]:
                found[name] = head[1]
    return found


def imports(text):
    """Where each name comes from that a file imports from definitions: crate and file."""
    return {name: (crate, file) for crate, file, names in IMPORT.findall(text) for name in re.split(r"[,\s]+", names)}


def owners(kind, head):
    """Under which names the members of an impl or a trait are found: the type's, and of a trait's impl the trait's too."""
    words = re.sub(r"\s+", " ", without_parameters(head)).split(" where ")[0].strip()
    return [last_name(it) for it in words.split(" for ")] if kind == "impl" else [last_name(words)]


def members(text):
    """The members of the types and traits of a source file, each behind its owner's name."""
    found = set()
    for it in BLOCK.finditer(text):
        inside = "" if text.startswith("}", it.end()) else text[it.end() : end_of(text, it.end(), "")]
        names = FUNCTION.findall(inside) + ITEM.findall(inside)
        found |= {(owner, name) for owner in owners(it["kind"], it["head"]) for name in names}
    for it in FIELDS.finditer(text):
        found |= {(it[1], name) for name in FIELD.findall(text[it.end() : end_of(text, it.end(), "")])}
    return found


def public_contracts(text):
    """The contracts of the functions of a source file that other crates may call: `pub` ones, and those of a `pub` trait."""
    traits = [(it.start(), end_of(text, it.end(), "")) for it in BLOCK.finditer(text) if it[0].startswith("pub trait")]
    for it in PUBLIC.finditer(text):
        if it[2] or any(start < it.start() < end for start, end in traits):
            function = text[it.start() : end_of(text, it.end(), it[1])]
            contract = CONTRACT.search(function)
            if contract:
                yield function[contract.start() : body_start(function)]


class Crate:
    """What a crate declares: the names of its sources, the members of its types, and the names of each file of its definitions."""

    def __init__(self, folder):
        """Reads its files."""
        self.name = folder.name
        paths = sorted((folder / "src").rglob("*.rt"))
        self.sources = {path: without_comments(path.read_text(encoding="utf-8")) for path in paths}
        texts = {path.stem: path.read_text(encoding="utf-8") for path in sorted((folder / "specs").glob("*.antt"))}
        self.files = {stem: definitions(text) for stem, text in texts.items()}
        self.imports = {stem: imports(text) for stem, text in texts.items()}
        self.members = {it for text in self.sources.values() for it in members(text)}
        self.aliases = dict(it for text in self.sources.values() for it in ALIAS.findall(text))
        # The names of the sources, members by their last names alone, and all names, those of definitions too.
        self.code = {name for _, name in self.members}
        for text in self.sources.values():
            self.code |= {*ITEM.findall(text), *FUNCTION.findall(text)}
        self.names = self.code.union(*self.files.values())

    def cited(self):
        """The definitions of crates here that the contracts of its public functions cite: crate, file and name of each."""
        for text in self.sources.values():
            imported = imports(text)
            for clause in public_contracts(text):
                for word in set(re.findall(r"\w+", clause)) & imported.keys():
                    yield (*imported[word], word)


def crates():
    """The crates by their names."""
    return {folder.name: Crate(folder) for folder in sorted(CRATES.iterdir()) if (folder / "src").is_dir()}


def libraries():
    """The crates that crates.txt lists, in its order, with the libraries that each stands on."""
    lines = (ROOT / "crates.txt").read_text(encoding="utf-8").splitlines()
    listed = [re.match(r"(\w+)(?: staticlib)?:(.*)", line) for line in lines]
    return {it[1]: it[2].split() for it in listed if it}


def without_blocks(text):
    """A page without its blocks of lines of a program or a picture."""
    return re.sub(r"(?ms)^```.*?^```$", "", text)


def quoted(text):
    """What stands between backticks on a page."""
    return re.findall(r"`([^`\n]+)`", without_blocks(text))
