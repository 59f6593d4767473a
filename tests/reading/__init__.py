"""Reads files of both formats from their bytes, by the pages of this repository alone: what each is opened to, the steps of its records or
their faults, and what the commands answer to it, by the reference player."""
