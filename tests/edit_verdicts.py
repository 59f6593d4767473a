"""What the prover says of each function of a crate."""

import re

LINE = re.compile(r"(?m)^fn (\S+): (.*)$")

# How a reason ends that lies in another function: one that this calls, or whose block it passes on.
OF_OTHERS = (", which is not proved", ", which are not proved")

# What is said where the proof of a function that this one calls can't be read at all.
WAITS = "which has no proof: help: prove it first"


def is_refused(said):
    """Whether a function isn't proved for a reason of its own, beside what it calls or passes on that isn't proved either."""
    if said.startswith("no proof: "):
        reasons = said.removeprefix("no proof: ").split("; ")
    elif said.startswith("not proved"):
        reasons = said.split("; ")
    else:
        return False
    return any(not reason.endswith(OF_OTHERS) and WAITS not in reason for reason in reasons)


def function_of(name):
    """The function in which a closure is, by the name that the prover gives the closure; any other name as it is."""
    return re.sub(r"::fn::(\w+)::.*", r"::\1", name)


def refused(text):
    """The functions that a check refuses for a reason of their own."""
    return {name for name, said in LINE.findall(text) if is_refused(said)}
