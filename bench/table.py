"""Prints rows of measured numbers as one table."""

MIB = 1 << 20

HEADS = ["subject", "ours", "peer or limit", "ratio", "goal", "memory, limit"]


def number(value, unit):
    """A number of seconds, nanoseconds or the like."""
    return f"{value:.4f} {unit}" if unit == "s" else f"{value:.1f} {unit}"


def goal_of(row):
    """A row's goal, and whether it is met."""
    if row.goal is not None:
        return f"{row.goal:g} {row.unit}: {'within' if row.ours <= row.goal else 'ABOVE'}"
    if row.most_ratio is not None:
        return f"{row.most_ratio:g} times: {'within' if row.ours <= row.most_ratio * row.beside else 'ABOVE'}"
    return ""


def memory_of(row):
    """What memory a row's run took at most, beside its limit."""
    if row.memory is None:
        return ""
    taken, limit = row.memory
    return f"{taken / MIB:.1f} of {limit / MIB:.1f} MiB{'' if taken <= limit else ': ABOVE'}"


def cells(row):
    """What the table has of a row."""
    beside = f"{number(row.beside, row.unit)}, {row.beside_name}"
    ratio = f"{row.ours / row.beside:.2f}" if row.beside > 0 else "none"
    return [row.subject, number(row.ours, row.unit), beside, ratio, goal_of(row), memory_of(row)]


def written(rows):
    """The table as text, which is Markdown too."""
    lines = [HEADS, *map(cells, rows)]
    widths = [max(len(line[at]) for line in lines) for at in range(len(HEADS))]
    lines.insert(1, ["-" * width for width in widths])
    return "\n".join(
        "| " + " | ".join(cell.ljust(width) for cell, width in zip(line, widths)) + " |" for line in lines
    )
