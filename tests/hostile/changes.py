"""Changes of files and certificates at random: cut, with bytes altered, with records or entries exchanged, doubled or left out, with sizes and
counts at their ends."""

import struct

from hostile.corpus import corpus, kinds_of, step
from metafile.scripts import EMF, WMF
from reading.opening import opened
from reference.certificates import ENTRY_SIZES, HEAD, NO_BOX, Entry
from reference.pixels import ONE_PIXEL, Refused

# Numbers at the ends of what fields of two and of four bytes may hold, and round limits of this project.
ENDS = {
    2: [0, 1, 2, 3, 5, 8, 9, 255, 256, 1023, 1024, 0x7FFE, 0x7FFF, 0x8000, 0x8001, 0xFFFE, 0xFFFF],
    4: [0, 1, 2, 3, 4, 7, 8, 9, 39, 40, 108, 124, 255, 256, 257, 0x7FFF, 0x8000, 0xFFFF, 0x10000, 1 << 20, (1 << 20) + 1],
}
for limit in (1 << 28, 1 << 30, 1 << 31):
    ENDS[4] += [limit - 1, limit, limit + 1, (1 << 32) - limit - 1, (1 << 32) - limit]
ENDS[4] += [0xFFFFFFFE, 0xFFFFFFFF]

BYTES = [0x00, 0x7F, 0x80, 0xFF]


class Parts:
    """A file's headers, its records, and what stands behind them."""

    def __init__(self, given):
        self.records = []
        try:
            form = opened(given).form
        except Refused:
            self.is_emf, self.head, self.rest = given[:1] == b"\x01", given, b""
            return
        self.is_emf, place, kind = form.is_emf, form.records, None
        while kind != form.framing.end:
            try:
                kind, data = form.framing.front(given, place, 0)
            except Refused:
                break
            self.records.append(data)
            place += len(data)
        self.head, self.rest = given[: form.records], given[place:]
        if self.is_emf and self.records:
            self.head = self.records.pop(0)

    def joined(self):
        """The file again."""
        return self.head + b"".join(self.records) + self.rest


def with_number(data, at, number, length):
    """Bytes with another number at a place, as far as it is there."""
    data = bytearray(data)
    data[at : at + length] = number.to_bytes(length, "little")[: max(0, len(data) - at)]
    return bytes(data)


def at_an_end(chance, data, first=0):
    """Bytes with a number at its end somewhere, at a whole place."""
    length = chance.choice([2, 4])
    at = first + 2 * chance.randrange(max(1, (len(data) - first) // 2))
    if chance.random() < 0.3 and at + length <= len(data):
        beside = int.from_bytes(data[at : at + length], "little") + chance.choice([-1, 1])
        return with_number(data, at, beside % (1 << 8 * length), length)
    return with_number(data, at, chance.choice(ENDS[length]), length)


# Changes of a whole file.


def cut(chance, given):
    """Some bytes at the end are gone: mostly few."""
    return given[: chance.choice([len(given) - 1 - chance.randrange(24), chance.randrange(len(given) + 1)])]


def altered(chance, given):
    """A byte is another."""
    if not given:
        return given
    at = chance.randrange(len(given))
    byte = chance.choice([*BYTES, given[at] ^ 1 << chance.randrange(8), chance.randrange(256)])
    return given[:at] + bytes([byte]) + given[at + 1 :]


def ended(chance, given):
    """A number of a header or a record is at its end."""
    return at_an_end(chance, given)


def longer(chance, given):
    """Bytes come in somewhere, or behind the end."""
    at = chance.choice([len(given), 2 * chance.randrange(len(given) // 2 + 1)])
    return given[:at] + chance.randbytes(chance.randint(1, 12)) + given[at:]


# Changes of a file's records.


def exchanged(chance, parts):
    """Two records stand in each other's place."""
    one, other = (chance.randrange(len(parts.records)) for _ in range(2))
    parts.records[one], parts.records[other] = parts.records[other], parts.records[one]


def doubled(chance, parts):
    """A record stands there more often."""
    at = chance.randrange(len(parts.records))
    parts.records[at:at] = [parts.records[at]] * chance.choice([1] * 12 + [2, 2, 2, 17, 17, 300])


def left_out(chance, parts):
    """Some records aren't there."""
    at = chance.randrange(len(parts.records))
    del parts.records[at : at + chance.choice([1, 1, 1, 2, 5])]


def brought(chance, parts):
    """A record comes in: of another file of the format, or one of a kind at the edge of its values."""
    other = Parts(chance.choice(corpus()))
    records = other.records if other.is_emf == parts.is_emf and other.records else kinds_of(parts.is_emf)
    if chance.random() < 0.5:
        records = kinds_of(parts.is_emf)
    parts.records.insert(chance.randrange(len(parts.records) + 1), chance.choice(records))


def stepped(chance, parts):
    """Steps that use objects, saved states, the clip, the map or a path come in, one by one."""
    form = EMF if parts.is_emf else WMF
    for _ in range(chance.choice([1, 1, 2, 3, 6])):
        at = chance.randrange(len(parts.records) + 1)
        parts.records[at:at] = form.records(step(form, chance))


def sized(chance, parts):
    """A record's size is another, or a little beside its own."""
    at = chance.randrange(len(parts.records))
    data, place = parts.records[at], 4 if parts.is_emf else 0
    size = int.from_bytes(data[place : place + 4], "little")
    sizes = [*ENDS[4], *(size + more for more in (-4, -2, -1, 1, 2, 4)), len(data) + 4]
    parts.records[at] = with_number(data, place, chance.choice(sizes) % (1 << 32), 4)


def counted(chance, parts):
    """A number of a record's parameters is at its end."""
    at = chance.randrange(len(parts.records))
    parts.records[at] = at_an_end(chance, parts.records[at], 8 if parts.is_emf else 6)


def shorter(chance, parts):
    """A record has fewer bytes, and tells that."""
    at = chance.randrange(len(parts.records))
    unit = 4 if parts.is_emf else 2
    data = parts.records[at]
    data = data[: max(8 if parts.is_emf else 6, len(data) - unit * chance.randint(1, 8))]
    parts.records[at] = with_number(data, 4, len(data), 4) if parts.is_emf else with_number(data, 0, len(data) // 2, 4)


WHOLE = [cut, altered, altered, ended, longer]
OF_RECORDS = [exchanged, doubled, left_out, brought, brought, stepped, stepped, stepped, sized, counted, counted, counted, shorter]


def changed(chance, given):
    """A file after a change."""
    if chance.random() < 0.4:
        return chance.choice(WHOLE)(chance, given)
    parts = Parts(given)
    if not parts.records:
        return chance.choice(WHOLE)(chance, given)
    chance.choice(OF_RECORDS)(chance, parts)
    return parts.joined()


# Changes of a certificate.


def entries_changed(chance, data):
    """Entries are exchanged, doubled or left out, and mostly counted so."""
    size = ENTRY_SIZES.get(data[:4], 20)
    entries = [data[at : at + size] for at in range(HEAD, len(data), size)]
    if not entries or chance.random() < 0.2:
        entries.append(Entry(chance.choice([0, 1, 5, len(entries)]), *NO_BOX).text(size > 20))
    at, other = (chance.randrange(len(entries)) for _ in range(2))
    way = chance.randrange(3)
    if way == 0:
        entries[at], entries[other] = entries[other], entries[at]
    elif way == 1:
        entries.insert(other, entries[at])
    else:
        del entries[at]
    told = len(entries) if chance.random() < 0.8 else chance.choice([0, len(entries) + 1, 1 << 20, (1 << 32) - 1])
    return data[:36] + told.to_bytes(4, "little") + b"".join(entries)


def need_changed(chance, data):
    """The writes or a need are one less, or one more."""
    at = chance.choice([12, 20, 24, 28, 32])
    number = int.from_bytes(data[at : at + 4], "little")
    return with_number(data, at, min(max(0, number + chance.choice([-1, -1, -1, 1])), (1 << 32) - 1), 4)


def number_changed(chance, data):
    """One of its numbers is a little beside, or at an end."""
    at = 4 * chance.randrange(1, max(2, min(len(data) // 4, 10 + chance.choice([0, 0, 5, 1000]))))
    number = int.from_bytes(data[at : at + 4], "little") + chance.choice([-1, 1, 1, 2])
    return with_number(data, at, chance.choice([number, number, chance.choice(ENDS[4])]) % (1 << 32), 4)


def nib_changed(chance, data):
    """A side of an entry's nib is another: a wider one mostly one less. Where entries have no nibs, they get some first."""
    if data[:4] == b"MPC1":
        data = with_nibs(data) if chance.random() < 0.8 else b"MPC2" + data[4:]
    size = ENTRY_SIZES[b"MPC2"]
    sides = [at + part for at in range(HEAD, len(data) - size + 1, size) for part in (20, 22)]
    if data[:4] != b"MPC2" or not sides:
        return data
    wide = [at for at in sides if data[at : at + 2] != b"\x01\0"]
    at = chance.choice(wide or sides)
    return with_number(data, at, other_side(chance, int.from_bytes(data[at : at + 2], "little")), 2)


def other_side(chance, side):
    """A side of a nib that is a little beside another, or at an end."""
    if chance.random() < 0.2:
        return chance.choice([0, 4096, 4097, 0xFFFF])
    return min(max(1, side + chance.choice([-1, -1, -1, 1])), 0xFFFF)


def with_nibs(data):
    """A certificate of the version without nibs as one of the version that has them, each of one pixel."""
    entries = [data[at : at + 20] + struct.pack("<2H", *ONE_PIXEL) for at in range(HEAD, len(data), 20)]
    return b"MPC2" + data[4:HEAD] + b"".join(entries)


OF_CERTIFICATES = [cut, altered, need_changed, need_changed, number_changed, number_changed, number_changed, entries_changed, entries_changed, longer]
OF_CERTIFICATES += [nib_changed] * 2


def certificate_changed(chance, data):
    """A certificate after a change."""
    return chance.choice(OF_CERTIFICATES)(chance, data)


# Changes of an image's text.


def head_changed(chance, data):
    """Something else stands at a gap or a number of the head: white space, a comment, a digit, or a number at its end."""
    at = chance.randrange(min(len(data), 14) + 1)
    told = [b" ", b"\t", b"\r", b"\n", b"#", b"# 5 5\n", b"0", b"00", b"1", b"6", b"255", b"8192", b"8193", b"65535", b"4294967297", b"-", b"\x0b", b"\0"]
    return data[:at] + chance.choice(told) + data[at + chance.choice([0, 0, 0, 1, 2]) :]


OF_IMAGES = [cut, altered, head_changed, head_changed, head_changed, longer]


def image_changed(chance, data):
    """An image's text after a change."""
    return chance.choice(OF_IMAGES)(chance, data)
