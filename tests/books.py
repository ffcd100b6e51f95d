"""Material books (document 02, vi), written and read plainly: what the tests of `rays` and of its tools go by.

Nothing here is shared with the tools. A surface is a Surface, a book is bytes.
"""
import math
import struct
from typing import NamedTuple

LONGEST = 65536
COUNTS = {1: 471, 5: 95}  # entries by the step
LENGTHS = {1: 7547, 5: 1531}  # bytes of a part


class Surface(NamedTuple):
    glass: bool
    two_sided: bool
    roughness: float
    eta: list
    k: list

    def line(self, index, outer=""):
        """The line of a job that makes it."""
        words = ["surface", str(index), "glass" if self.glass else "metal", *["two-sided"] * self.two_sided,
                 digits(self.roughness), "eta", *map(digits, self.eta), "k", *map(digits, self.k)]
        return " ".join(words) + outer

    def raised(self):
        # a NaN is raised as well
        return self.roughness if self.roughness > 1e-5 else 1e-5

    def equal(self, other):
        """By kind, raised roughness and spectra, numbers by value."""
        return (self.glass == other.glass and self.raised() == other.raised()
                and len(self.eta) == len(other.eta)
                and all(x == y for x, y in zip(self.eta + self.k, other.eta + other.k)))

    def refused(self):
        """1, 2, 3, or 0 where it is accepted."""
        if not 0 <= self.roughness <= 1:
            return 1
        if not all(0.01 <= x <= 100 for x in self.eta):
            return 2
        zeros = all(x == 0 for x in self.k)
        return 0 if zeros or not self.glass and all(0.000001 <= x <= 100 for x in self.k) else 3


def digits(x):
    return struct.pack(">d", x).hex()


# ---- written

def part(surface, step=None, flag=None, kind=None):
    """The bytes of a part; a byte may be another than the surface's own."""
    own = 1 if len(surface.eta) == 471 else 5
    head = bytes([int(surface.glass) if kind is None else kind, own if step is None else step,
                  int(surface.two_sided) if flag is None else flag])
    numbers = [surface.roughness, *surface.eta, *surface.k]
    return head + struct.pack(f"<{len(numbers)}d", *numbers)


def head_of(parts):
    """The numbers before the parts: how many there are, and of each where it begins and its length."""
    numbers, at = [len(parts)], 4 + 8 * len(parts)
    for one in parts:
        numbers += [at, len(one)]
        at += len(one)
    return numbers


def joined(numbers, parts):
    return struct.pack(f"<{len(numbers)}I", *numbers) + b"".join(parts)


def of_parts(parts):
    return joined(head_of(parts), parts)


def distinct(surfaces):
    """Without those that are equal to an earlier one."""
    return [s for i, s in enumerate(surfaces) if not any(s.equal(t) for t in surfaces[:i])]


def written(surfaces):
    return of_parts([part(s) for s in distinct(surfaces)])


# ---- read

def surface_of(raw):
    step = raw[1]
    roughness, *numbers = struct.unpack(f"<{1 + 2 * COUNTS[step]}d", raw[3:])
    return Surface(raw[0] == 1, raw[2] == 1, roughness, numbers[:COUNTS[step]], numbers[COUNTS[step]:])


def layout(book):
    """The parts of a book, or None where it has another layout."""
    if not 4 <= len(book) <= LONGEST:
        return None
    count, = struct.unpack_from("<I", book)
    at, parts = 4 + 8 * count, []
    if at > len(book):
        return None
    for i in range(count):
        offset, length = struct.unpack_from("<II", book, 4 + 8 * i)
        raw = book[at:at + length]
        if (offset != at or len(raw) != length or length < 3 or raw[0] > 1 or raw[1] not in LENGTHS or raw[2] > 1
                or length != LENGTHS[raw[1]]):
            return None
        parts.append(raw)
        at += length
    return parts if at == len(book) else None


def reading(book):
    """The number that a book is refused with, or 0, and its surfaces."""
    parts = layout(book)
    if parts is None:
        return 14, []
    surfaces = list(map(surface_of, parts))
    if len(distinct(surfaces)) < len(surfaces):
        return 14, []
    number = next((s.refused() for s in surfaces if s.refused()), 0)
    return number, [] if number else surfaces


def answer(index, book):
    """What `rays` answers to a line that reads the book to the surfaces from an index on."""
    number, surfaces = reading(book)
    if number:
        return f"book {index} refused {number}"
    if index + len(surfaces) > 64:
        return "error word 2: the book's surfaces go past the last place"
    return f"book {index} ok {len(surfaces)}"


# ---- surfaces at random

def some(rnd, fine=False, glass=None):
    """A surface that is accepted."""
    count = 471 if fine else 95
    glass = rnd.random() < 0.5 if glass is None else glass
    constant = [round(rnd.uniform(1, 3), 3)] * count
    eta = constant if rnd.random() < 0.3 else [rnd.uniform(0.01, 100) for _ in range(count)]
    zeros = glass or rnd.random() < 0.2
    k = [rnd.choice((0.0, -0.0)) if zeros else rnd.uniform(0.000001, 100) for _ in range(count)]
    roughness = rnd.choice((0.0, -0.0, 5e-324, 1e-5, 0.000999, 0.001, 1.0, rnd.random(), rnd.random()))
    return Surface(glass, rnd.random() < 0.5, roughness, eta, k)


def metals(count, fine=0):
    """Metals of which no two are equal, the first of them 1 nm apart."""
    return [Surface(False, False, 0.5, [1 + i / 64] * (471 if i < fine else 95), [2.0] * (471 if i < fine else 95))
            for i in range(count)]


METAL = Surface(False, False, 0.0, [1.0] * 95, [2.0] * 95)
GLASS = Surface(True, False, 0.0, [3.0] * 471, [0.0] * 471)
EXAMPLE = written([METAL])
assert len(EXAMPLE) == 1543 and EXAMPLE[:14].hex() == "010000000c000000fb0500000005"


# ---- damaged

def some_place(rnd, entries):
    return rnd.choice((0, len(entries) - 1, rnd.randrange(len(entries))))


def other(rnd, surface, change):
    """A surface with another number in one place."""
    name = rnd.choice(("eta", "k", "roughness"))
    if name == "roughness":
        return surface._replace(roughness=change(surface.roughness))
    entries = list(getattr(surface, name))
    at = some_place(rnd, entries)
    entries[at] = change(entries[at])
    return surface._replace(**{name: entries})


def twin(rnd, surface):
    """A surface that is equal to another, or nearly."""
    if rnd.random() < 0.5:
        surface = surface._replace(two_sided=not surface.two_sided)
    if rnd.random() < 0.5 and surface.raised() == 1e-5:
        surface = surface._replace(roughness=rnd.choice((0.0, -0.0, 1e-6, 1e-5)))
    if rnd.random() < 0.5 and not any(surface.k):
        surface = surface._replace(k=[rnd.choice((0.0, -0.0)) for _ in surface.k])
    if rnd.random() < 0.3:
        surface = other(rnd, surface, lambda x: math.nan if rnd.random() < 0.2 else math.nextafter(x, 1.0))
    return surface


# at the limits and beyond
ODD = (math.nan, math.inf, -1.0, 0.0, -0.0, 0.009999999999999998, 0.01, 100.0, 100.00000000000001, 1e-7, 0.000001,
       1.0000000000000002)


def with_twin(rnd, surfaces):
    surfaces.insert(rnd.randrange(len(surfaces) + 1), twin(rnd, rnd.choice(surfaces)))
    return with_odd_numbers(rnd, surfaces) if rnd.random() < 0.3 else of_parts(list(map(part, surfaces)))


def with_odd_numbers(rnd, surfaces):
    for _ in range(rnd.choice((1, 1, 2))):
        at = rnd.randrange(len(surfaces))
        surfaces[at] = other(rnd, surfaces[at], lambda _: rnd.choice(ODD))
    return of_parts(list(map(part, surfaces)))


def with_odd_head(rnd, surfaces):
    """A kind, a step or a flag that is another."""
    parts = list(map(part, surfaces))
    at, byte = rnd.randrange(len(parts)), rnd.choice((0, 1, 2, 5, 255, rnd.randrange(256)))
    parts[at] = part(surfaces[at], **{rnd.choice(("step", "flag", "kind")): byte})
    return of_parts(parts)


def with_odd_length(rnd, surfaces):
    """A part with another number of entries than its step's."""
    count, at = rnd.choice((0, 1, 94, 96, 283, 470, 472)), rnd.randrange(len(surfaces))
    parts = list(map(part, surfaces))
    parts[at] = part(surfaces[at]._replace(eta=[1.5] * count, k=[0.0] * count), step=rnd.choice((1, 5)))
    return of_parts(parts)


# what stands in a count or a pair, or for it
NUMBERS = (0, 1, 3, 4, 8, 12, 42, 43, 1531, 1543, 7547, 65535, 65536, 2**31, 2**32 - 1, 2**32 - 8)


def with_odd_number(rnd, surfaces):
    """A count, an offset or a length that is another."""
    parts = list(map(part, surfaces))
    numbers = head_of(parts)
    at, near = rnd.randrange(len(numbers)), rnd.choice((-8, -1, 1, 8, 256, 2**16, 2**29))
    numbers[at] = rnd.choice((rnd.choice(NUMBERS), rnd.choice(numbers), (numbers[at] + near) % 2**32))
    return joined(numbers, parts)


def with_other_order(rnd, surfaces):
    """Pairs that are not sorted, or parts that are not in the order of their pairs."""
    parts = list(map(part, surfaces))
    numbers = head_of(parts)
    i, j = rnd.randrange(len(parts)), rnd.randrange(len(parts))
    pairs = [numbers[at:at + 2] for at in range(1, len(numbers), 2)]
    pairs[i], pairs[j] = pairs[j], pairs[i]
    return joined(numbers[:1] + sum(pairs, []), parts)


def with_hole(rnd, surfaces):
    """Bytes before a part, which its offset and those behind it know of."""
    parts = list(map(part, surfaces))
    numbers = head_of(parts)
    at, hole = rnd.randrange(len(parts)), rnd.randrange(1, 9)
    numbers[1 + 2 * at::2] = [offset + hole for offset in numbers[1 + 2 * at::2]]
    parts[at] = rnd.randbytes(hole) + parts[at]
    return joined(numbers, parts)


def with_other_end(rnd, surfaces):
    book = of_parts(list(map(part, surfaces)))
    return book[:rnd.randint(0, len(book))] if rnd.random() < 0.5 else book + rnd.randbytes(rnd.choice((1, 8, 1531, 65536)))


def with_flips(rnd, surfaces):
    book = bytearray(of_parts(list(map(part, surfaces))))
    for _ in range(rnd.choice((0, 1, 1, 3))):
        book[rnd.randrange(len(book))] ^= 1 << rnd.randrange(8)
    return bytes(book)


DAMAGES = (with_twin, with_odd_numbers, with_odd_head, with_odd_length, with_odd_number, with_other_order, with_hole,
           with_other_end, with_flips)


def damaged(rnd):
    """A book of a few surfaces, or of many, with something wrong in it, mostly."""
    surfaces = [some(rnd, rnd.random() < 0.3) for _ in range(rnd.choice((1, 1, 2, 2, 3, 4)))]
    return rnd.choice(DAMAGES)(rnd, metals(rnd.choice((41, 42, 43))) if rnd.random() < 0.05 else surfaces)
