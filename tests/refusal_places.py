"""The functions of the sources that give up, with their whole bodies: each that makes a want of memory, a fault of input or output, a
status other than the one of work that is done, or a line that tells one, and the lines in which it does; and each that does what is dear.

The sources are in the formatter's layout, with comments, attributes and contracts left out here.
"""

import re
import textwrap
from typing import NamedTuple

from edit_functions import functions, modules_of

# What gives up: by name, as a line that is told, by a status or a wrong usage, or by what is asked of an allocator.
GIVES_UP = re.compile(
    r'\b(?:OutOfMemory|CannotRead|WriteFault|InputFault|REFUSED|USAGE|INPUT_OR_OUTPUT|OUT_OF_MEMORY|ExitCode|AllocError)\b'
    r'|"cannot (?:read|write)"|\breport\(|\bcommand\.error\(|\.then_some\(|\bfmt::Error\b'
    r'|\b(?:try_)?reserve(?:_exact|_all)?\b|\bensure_capacity\b|\bfrom_elem\b|\bwith_capacity\b|\bresize(?:_with)?\b'
    r"|\bextend_from_(?:slice|within)\b|\bfrom_slice\b|\.repeat\b|\.collect\b"
    r"|\bgrow(?:::<[^>]*>)?\(|(?<!self)\.push\b|\.insert\b|\.append\b|\bto_vec\b|\bvec!|\bBox::"
    r"|\.(?:try_)?clone(?:_from)?\b|\b(?:from|extend_with)_clones\b|\b(?:in)?to_owned\b|\bto_string\b|\binto_boxed|\bformat!|\btry_resize"
    r"|\b(?:push|insert)_(?:mut|str)\b|\bsplit_off\b|\.sort(?:_by(?:_cached)?(?:_key)?)?\(|\.join\(|\.concat\("
)

# What is dear where it is done once more: a file's records are read, or something is divided by what is no constant; a row of more than 99
# that stands on the stack, where no clause says how much there is; and a loop that goes by eights, which is dear where it ends early.
DEAR = re.compile(
    r"\.source\(\)|\bcount_steps\(|\bfirst_extent\(|\bopen_file\(|\b(?:Wmf|Emf|Record)Ops::new\(|\bDivisor::new\(|\bPlace::new\(|(?<![\w.])cells\("
    r"|\.(?:div_ceil|next_multiple_of)\((?!\d)|\b(?:checked|wrapping|overflowing|saturating)_(?:div|rem)\b|\b(?:div|rem)_euclid\b|(?<!\w)[/%]=? (?![A-Z][A-Z_]+\b|\d|\(1 << )"
    r"|(?<!&)\[[\w.()]+; (?!\d{1,2}\])[^\[\]]+\]|\bwhile .*(?:\+ PERIOD|>= \d)"
)

# A function's answer whose errors are no fault of a file, in which each `?` hands one on.
HANDS_ON = re.compile(r"-> [^{]*Result<[^{]*\b(?:OutOfMemory|WriteFault|InputFault|AllocError|Error)>")

# One that answers what a command line asks for: nothing is wrong usage.
ASKS = re.compile(r"-> Option<")

# A function that answers a status: each number in it may be one.
STATUS = re.compile(r"-> (?:u8|ExitCode|Completion)\b")

# A function whose answer may tell that it gives up, or that is given the allocator: it is listed, whatever its lines say.
MAY_TELL = re.compile(
    r"-> [^{]*\b(?:OutOfMemory|WriteFault|InputFault|AllocError|Refusal|Answer|fmt::Result)\b|\b(?:Global|AllocGlobal)\b"
)

CONTRACT = re.compile(r"(?m)^ +(?:requires|ensures|decreases|where)\b")


class Line(NamedTuple):
    """A line of a body, and whether it gives up."""

    text: str
    gives_up: bool

    def wants_reason(self):
        """Whether it is to have a reason: of what opens a block, the lines in that block have."""
        return self.gives_up and not self.text.endswith("{")


class Body(NamedTuple):
    """A function by its name, and the lines of its body."""

    function: str
    lines: tuple
    may_tell: bool = False

    def gives_up(self):
        """Whether any of its lines does."""
        return any(line.gives_up for line in self.lines)

    def is_listed(self):
        """Whether it stands in the list: it gives up, or its answer may tell that something did."""
        return self.may_tell or self.gives_up()


def without_comments(text):
    """Source text without its comments and attributes. A quote may stand as a letter of its own."""
    return re.sub(r'(?m)("(?:[^"\\]|\\.)*"|b?\'(?:[^\'\\\n]|\\[^\'\n]+|\\\')\')|/\*[\s\S]*?\*/|//.*$|^\s*#!?\[.*\]$', lambda it: it[1] or "", text)


def clause_ends(text):
    """Where each clause of a contract ends in source text: behind the brace that closes it."""
    for clause in CONTRACT.finditer(text):
        depth, at = 0, text.find("{", clause.end())
        while 0 <= at < len(text):
            depth += {"{": 1, "}": -1}.get(text[at], 0)
            at += 1
            if depth == 0:
                yield at
                break


def out_of_layout(text):
    """The lines of a source file in which something stands where a reader of bodies doesn't look: behind a clause of a contract, behind the
    brace of a function's own line, or before a comment of what follows."""
    plain = without_comments(text)
    found = [line for line in text.splitlines() if re.search(r"\S.*///? [A-Z]", line.replace("://", "")) and not line.lstrip().startswith(("//", "ghost"))]
    for end in clause_ends(plain):
        line = plain[plain.rfind("\n", 0, end) + 1 : plain.find("\n", end)]
        found += [line] if plain[end : plain.find("\n", end)].strip() not in ("", ";") else []
    found += [line for line in plain.splitlines() if re.match(r" *(?:pub(?:\([^)]*\))? )?(?:const |extern \S+ )?fn .*\{.*\S", line) and not line.endswith("{}")]
    return found


def body_start(text):
    """Where the body of a function's text begins: behind the brace that ends the signature, or, where a contract stands behind that,
    behind the first line that is a brace alone. What a trait only declares has none."""
    signature = re.search(r"(?m)\{(?: *\})?$", text)
    contract = CONTRACT.search(text)
    alone = re.search(r"(?m)^ *\{$", text)
    start = alone if alone and contract and contract.start() < signature.start() else signature
    declared = re.search(r"(?m);$", text)
    if not start or (declared and declared.start() < start.start()):
        return len(text)
    return text.index("{", start.start()) + 1


def giving_up(answer, text):
    """What tells a line that gives up, in a function of this answer; the function stands in a file of this text."""
    hands_on = HANDS_ON.search(answer)
    asks = "use clap" in text and ASKS.search(answer)
    is_status = re.search(r"use crate::status|ExitCode", text) and STATUS.search(answer)

    def gives_up(line):
        """Whether a line does."""
        number = is_status and re.search(r"(?<![\w.])\d", line)
        return bool(GIVES_UP.search(line) or DEAR.search(line) or (hands_on and "?" in line) or (asks and "None" in line) or number)

    return gives_up


def body(name, function, text):
    """The body of a function, which stands in a file of this text."""
    start = body_start(function)
    answer = " ".join(CONTRACT.split(function[:start])[0].split())
    gives_up = giving_up(" ".join(function[:start].split()), text)
    inside = textwrap.dedent(function[start:].rpartition("}")[0])
    lines = tuple(Line(line, gives_up(line)) for line in inside.splitlines() if line.strip())
    return Body(name, lines, bool(MAY_TELL.search(answer)))


def bodies(crate, sources):
    """The bodies of all functions of a crate, whose files are given by their paths, in order."""
    plain = {path: without_comments(text) for path, text in sources.items()}
    return [
        body(it.name, plain[path][it.start : it.end], plain[path])
        for path in sorted(plain)
        for it in functions(crate, plain, path)
    ]


# What a name of a source file stands for: an import, or a module.
NAME = re.compile(r"(?ms)^ *(?:pub(?:\([^)]*\))? )?(?:use|mod) [^;{]*(?:\{[^;]*\})?;")


def names_of(crate, sources, names):
    """The imports and modules of the files in which functions of these names stand, and of the crate's root, of each file as a body without a
    reason: a name may lead elsewhere than its text says."""
    found = []
    for path in sorted(sources):
        is_told = any(it.name in names for it in functions(crate, sources, path))
        if is_told or (names and path in ("src/lib.rt", "src/main.rt")):
            lines = [Line(" ".join(it[0].split()), False) for it in NAME.finditer(without_comments(sources[path]))]
            if lines:
                found.append(Body("::".join([crate, *modules_of(path), "use"]), tuple(lines)))
    return found


# Where a constant begins, and what stands in it up to its end: text, a list, or a block, each of which may go over several lines.
CONSTANT = re.compile(r"(?m)^ *(?:pub(?:\([^)]*\))? )?const \w+:")
IN_CONSTANT = re.compile(r'"(?:[^"\\]|\\.)*"|\[(?:[^\[\]]|\[[^\[\]]*\])*\]|\{(?:[^{}]|\{[^{}]*\})*\}|[^;"\[{]', re.DOTALL)

# An attribute, whatever stands between it and the item that it is of.
ATTRIBUTE = re.compile(r"(?m)^ *(#!?\[(?!tactic\b)[^\n]*\])\n(?:\s*(?:#\[.*\]|//.*)\n)*\s*(.*)$")

# What a line break within a constant is listed as, since a list has a line for each.
BREAK = "⏎"


def constant_from(text, start, end):
    """The constant of a source file that begins here, up to the semicolon that ends it, on one line; `end` is where its type begins."""
    while part := IN_CONSTANT.match(text, end):
        end = part.end()
    return text[start:end].strip().replace("\n", BREAK) + ";"


def bodies_by_file(crate, sources, names, word, lines_of):
    """What `lines_of` finds in each file in which functions of these names stand, as a body of this name without a reason."""
    found = []
    for path in sorted(sources):
        here = any(it.name in names for it in functions(crate, sources, path))
        lines = tuple(Line(line, False) for line in lines_of(sources[path])) if here else ()
        if lines:
            found.append(Body("::".join([crate, *modules_of(path), word]), lines))
    return found


def constants_of(text):
    """The constants of a source file."""
    plain = without_comments(text)
    return [constant_from(plain, it.start(), it.end()) for it in CONSTANT.finditer(plain)]


def attributes_of(text):
    """The attributes of a source file but those that choose a tactic, each with the first line of its item: a text that is shown stands in one,
    or that a function isn't inlined."""
    return [f"{it[1]} {it[2].strip()}" for it in ATTRIBUTE.finditer(text)]


def constants(crate, sources, names):
    """The constants of the files in which functions of these names stand, of each file as a body without a reason."""
    return bodies_by_file(crate, sources, names, "const", constants_of)


def attributes(crate, sources, names):
    """The attributes of these files, in the same way."""
    return bodies_by_file(crate, sources, names, "attributes", attributes_of)
