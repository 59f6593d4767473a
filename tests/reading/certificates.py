"""Reads certificates from their bytes, and checks what they say against what the records of a file draw."""

from reading.fields import Record, fault
from reading.rules import CORE, Rules
from reference.certificates import ENTRY_SIZES, HEAD, Certificate, Entry, entry_refusal
from reference.pixels import LONGEST_NIB

LONGEST_SIDE = 8192

# The most of saved states, slots, points and pieces, and of entries.
MOST = (256, 65535, 1 << 20, 1 << 16, 1 << 20)


def entry_in(told):
    """The entry of some bytes, with the nib that stands behind its box, if one does."""
    nib = [told.u16(at) for at in range(20, len(told.data), 2)]
    return Entry(told.u32(0), *told.signed(4, 4, 4), *nib)


# The first bytes of a certificate of the print profile, how many bytes stand before its entries, and the greatest number of what it allows.
PRINT_MARK = b"MPC3"
PRINT_HEAD = 4 + HEAD
MOST_ALLOWED = 3


def rules_in(data):
    """The rules by which a certificate was made."""
    if data[:4] != PRINT_MARK or len(data) < PRINT_HEAD:
        return CORE
    allowed = Record(data).u32(4)
    return Rules(True, allowed % 2 == 1, allowed >= 2)


def without_rules(data):
    """The bytes of a certificate of the print profile as one of core, or their first fault."""
    if len(data) < PRINT_HEAD:
        raise fault("ShortCertificate")
    if Record(data).u32(4) > MOST_ALLOWED:
        raise fault("BadBound")
    return b"MPC2" + data[8:]


def read_certificate(data):
    """What the bytes of a certificate say, or their first fault."""
    if data[:4] == PRINT_MARK:
        data = without_rules(data)
    head = Record(data)
    if data[:4] not in ENTRY_SIZES:
        raise fault("NotCertificate")
    if len(data) < HEAD:
        raise fault("ShortCertificate")
    sides, told = (head.u32(4), head.u32(8)), [head.u32(at) for at in range(20, HEAD, 4)]
    if not all(1 <= side <= LONGEST_SIDE for side in sides) or any(number > most for number, most in zip(told, MOST, strict=True)):
        raise fault("BadBound")
    size = ENTRY_SIZES[data[:4]]
    whole = HEAD + size * told[-1]
    if len(data) != whole:
        raise fault("ShortCertificate" if len(data) < whole else "TrailingBytes")
    entries = tuple(entry_in(Record(data[at : at + size])) for at in range(HEAD, whole, size))
    if not all(1 <= side <= LONGEST_NIB for entry in entries for side in entry.nib):
        raise fault("BadBound")
    return Certificate(*sides, head.number(12, 8), *told[:-1], entries)


def refusal_of(certificate, certifier, stop, records):
    """The first fault of a certificate, whose bound is the certifier's, for a file of so many records that stops there, or doesn't."""
    drawings, entries = certifier.drawings, certificate.entries
    refusal = entry_refusal(drawings, entries) or stop
    if refusal is None and len(entries) > len(drawings):
        refusal = "WrongEntry", records - 1
    if refusal is not None:
        return refusal
    edges = max((drawing.edges for drawing in drawings), default=0)
    needs = certifier.depth, certifier.slots, edges, certifier.pieces
    if any(told < needed for told, needed in zip(certificate[3:7], needs, strict=True)):
        return "NeedTooSmall", None
    return ("BudgetTooSmall", None) if certificate.writes < certifier.budget(entries) else None
