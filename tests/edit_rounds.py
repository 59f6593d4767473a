"""Which wrong bodies of a crate are judged together: rounds of edits that stand side by side in one text."""

from typing import NamedTuple

from edit_functions import pairs


class Edit(NamedTuple):
    """An edit: its name, its text, the functions that have to be refused, and whether it is tried alone, as it is where it names them or
    changes what stands in no function."""

    name: str
    text: str
    functions: tuple
    is_alone: bool = False


class Round(NamedTuple):
    """Edits of different functions that are judged together, and the texts of the crate's files with them."""

    edits: list
    texts: dict


def placed_in(texts, edit):
    """The texts of a crate's files with an edit in them, or none where it doesn't find its place."""
    texts = dict(texts)
    for path, old, new in pairs(edit.text):
        if texts[path].count(old) != 1:
            return None
        texts[path] = texts[path].replace(old, new)
    return texts


def parts_of(edits, most):
    """The edits in parts of about as many functions each, at most so many, those of one function together; last those that are tried alone."""
    number = -(-len({name for edit in edits for name in edit.functions}) // most) or 1
    size = -(-len({name for edit in edits for name in edit.functions}) // number)
    parts, names = [[]], set()
    for edit in sorted(edits, key=lambda it: (it.is_alone, it.functions, it.name)):
        if parts[-1] and len(names | set(edit.functions)) > size:
            parts.append([])
            names = set()
        parts[-1].append(edit)
        names |= set(edit.functions)
    return parts


def with_edit(this, edit, sources):
    """A round with one more edit, or none where one of its edits changes the same function or takes the edit's place. Where the new text of another
    edit has this one's old text, this one finds its place first."""
    if any(set(edit.functions) & set(other.functions) for other in this.edits):
        return None
    texts = placed_in(this.texts, edit)
    if texts:
        return Round([*this.edits, edit], texts)
    edits, texts = [edit, *this.edits], sources
    for it in edits:
        texts = texts and placed_in(texts, it)
    return Round(edits, texts) if texts else None


def rounds_of(edits, sources):
    """The edits of functions in rounds: in none is a function changed by two, and all find their places together."""
    rounds = []
    for edit in edits:
        for at, it in enumerate(rounds):
            more = with_edit(it, edit, sources)
            if more:
                rounds[at] = more
                break
        else:
            rounds.append(Round([edit], placed_in(sources, edit)))
    return rounds


def beside(this, standing, sources):
    """A round with those of the edits before it that find their places beside it, so that what they change isn't proved again."""
    for edit in standing:
        this = with_edit(this, edit, sources) or this
    return this
