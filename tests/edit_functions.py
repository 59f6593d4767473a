"""Which function of a crate an edit changes, by the name that the prover gives it.

The sources are in the formatter's layout: an item ends at the first line that closes a brace as far to the left as it begins.
"""

import re
from typing import NamedTuple

FUNCTION = re.compile(r"(?m)^(?P<indent> *)(?:pub(?:\([^)]*\))? )?(?:const |unsafe |extern \S+ )*fn (?P<name>\w+)")

TYPE = re.compile(r"(?m)^(?:pub(?:\([^)]*\))? )?(?:struct|enum) (\w+)")

BLOCK = re.compile(r"(?m)^(?:pub(?:\([^)]*\))? )?(?P<kind>impl|trait)\b(?P<head>[^{]*)\{")


class Function(NamedTuple):
    """A function: its name, and from where to where its text stands, contract and body."""

    name: str
    start: int
    end: int


def without_parameters(head):
    """The head of an impl or a trait without what stands between angle brackets."""
    depth, kept = 0, []
    for sign, before in zip(head, " " + head):
        depth += sign == "<"
        if not depth:
            kept.append(sign)
        depth -= sign == ">" and before not in "-="
    return "".join(kept)


def last_name(path):
    """The last name of a path to a type or a trait, and of a trait its bounds left out."""
    return re.match(r"[&\s]*(?:\w+::)*(\w+)", path)[1]


def block_name(kind, head):
    """How the prover names what stands in an impl or a trait: by the type, and of a trait's impl by type and trait, and for `From` by what it is made
    from. And whether it is what a type has by itself."""
    words = re.sub(r"\s+", " ", without_parameters(head)).split(" where ")[0].strip()
    if kind == "impl" and " for " in words:
        name, owner = words.split(" for ", 1)
        made = re.match(r" From<([\w:]+)> for ", head)
        return last_name(owner) + last_name(name) + (last_name(made[1]) if made else ""), False
    return last_name(words), kind == "impl"


def end_of(text, start, indent):
    """Where an item ends whose first line has this indent."""
    end = re.compile(rf"(?m)^{indent}(?:\{{\}}$|\}})").search(text, start)
    return end.end() if end else len(text)


def modules_of(path):
    """The modules in which a source file stands."""
    parts = path.removeprefix("src/").removesuffix(".rt").split("/")
    return [] if parts in (["lib"], ["main"]) else parts


def types_of(sources):
    """The modules in which each type of a crate is declared, by the texts of its files."""
    return {it[1]: modules_of(path) for path, text in sources.items() for it in TYPE.finditer(text)}


class Block(NamedTuple):
    """An impl or a trait: from where to where it stands, its modules and its name."""

    start: int
    end: int
    modules: list
    name: str


def blocks(sources, path):
    """The impls and traits of a source file. What a type has by itself stands, for the prover, where the type does."""
    types, found = types_of(sources), []
    for it in BLOCK.finditer(sources[path]):
        name, is_own = block_name(it["kind"], it["head"])
        modules = types.get(name, modules_of(path)) if is_own else modules_of(path)
        is_empty = sources[path].startswith("}", it.end())
        end = it.end() if is_empty else end_of(sources[path], it.end(), "")
        found.append(Block(it.start(), end, modules, name))
    return found


def functions(crate, sources, path):
    """The functions of a source file of a crate, those in impls and traits too."""
    text, standing, found = sources[path], blocks(sources, path), []
    for it in FUNCTION.finditer(text):
        owners = [block for block in standing if it["indent"] and block.start <= it.start() < block.end]
        inside = [*owners[0].modules, owners[0].name] if owners else modules_of(path)
        name = "::".join([crate, *inside, it["name"]])
        found.append(Function(name, it.start(), end_of(text, it.end(), it["indent"])))
    return found


ATTRIBUTES = re.compile(r"(?m)(?:^ *(?:#\[.*|///.*)\n)*\Z")

TACTIC = re.compile(r"(?m)^ *#\[tactic\(.*\)\]\n")


def attributes_before(text, function):
    """The lines of attributes and comments above a function."""
    return ATTRIBUTES.search(text[: function.start])[0]


def can_stay_unproved(text, function):
    """Whether the prover can be told to leave a function's goals: not of a trait's functions, most of which have no body."""
    traits = [it for it in BLOCK.finditer(text) if it["kind"] == "trait"]
    return not any(it.start() <= function.start < end_of(text, it.end(), "") for it in traits)


def without_body(text, function, indent):
    """A function's text with a body that is never reached. A `const fn` keeps its own, since the compiler may run it, and so does one of a cycle, since
    it has to be in one."""
    whole = text[function.start : function.end]
    begin = re.search(rf"(?m)^{indent}\{{$|(?<= )\{{$", whole)
    if "const fn" in whole.split("(")[0] or "#[cycle(" in attributes_before(text, function) or not begin:
        return whole
    return f"{whole[: begin.end()]}\n{indent}    unreachable!()\n{indent}}}"


def left_unproved(text, function):
    """The text with a function whose goals the prover leaves, in place of one with an attribute of its own about its proof."""
    indent = re.match(" *", text[function.start :])[0]
    attributes = attributes_before(text, function)
    before = text[: function.start].removesuffix(attributes) + TACTIC.sub("", attributes)
    return f"{before}{indent}#[tactic(none)]\n{without_body(text, function, indent)}{text[function.end :]}"


def unproved(crate, sources, asked):
    """The texts of a crate's files in which functions have no body and the prover leaves their goals, but for those that are asked, and the names of
    the others."""
    texts, others = dict(sources), set()
    for path, text in sources.items():
        left = [it for it in functions(crate, sources, path) if it.name not in asked and can_stay_unproved(text, it)]
        for it in reversed(left):
            texts[path] = left_unproved(texts[path], it)
        others |= {it.name for it in left}
    return texts, others


def pairs(edit):
    """The pairs of an edit's text: the file, the text that stands in it, and what takes its place."""
    path = old = None
    for line in edit.split("\n"):
        if line.startswith("file: "):
            path = line.removeprefix("file: ").strip()
        elif line.startswith("old: "):
            old = line.removeprefix("old: ")
        elif line.startswith("new:"):
            yield path, old, line.removeprefix("new:").removeprefix(" ")


def named_functions(edit):
    """The functions that an edit's text names itself, since what it changes stands in none, or in others too."""
    return re.findall(r"(?m)^function: (\S+)$", edit)


def changed_functions(crate, edit, sources):
    """The names of the functions that an edit's text changes, one pair after another, and whether it also changes what stands
    in none. The crate's files are given by their paths."""
    names, outside, sources = [], False, dict(sources)
    for path, old, new in pairs(edit):
        place = sources[path].find(old)
        inside = [it.name for it in functions(crate, sources, path) if it.start <= place < it.end]
        names += [name for name in inside[-1:] if name not in names]
        outside = outside or not inside
        sources[path] = sources[path].replace(old, new)
    return names, outside
