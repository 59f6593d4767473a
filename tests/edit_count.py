"""How many mutants there are, so that none is lost. It stands by itself, since no judgement reads it."""

COUNT = 688
