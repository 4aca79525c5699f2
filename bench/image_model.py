"""A model of images, version 1, that is independent of the proved reader.

The format is told as what may come next: `image()` is a generator that yields a `Choice` for each byte and is sent the
byte. A choice permits exactly the bytes after which some image still goes on, so that the first byte that isn't
permitted is the first fault.
"""


class Set:
    """The next byte is one of these; those of `short` end an image soon."""

    def __init__(self, values, short=None):
        self.values = frozenset(values)
        self.ordered = sorted(values)
        self.short = sorted(short or values)

    def permits(self, byte):
        return byte in self.values

    def draw(self, random, is_short):
        return random.choice(self.short if is_short else self.ordered)


class Digit:
    """The next byte of a number from `low` to `high` in its shortest form, whose `count` bytes so far make `value`. A
    number that is a size says how much follows, so that a small one is drawn."""

    def __init__(self, low, high, is_size):
        self.low, self.high, self.is_size = low, high, is_size
        self.count = self.value = 0
        self.wish = None

    def add(self, byte):
        self.value += (byte & 127) << 7 * self.count
        self.count += 1

    def permits(self, byte):
        """Whether some number of the range has these lowest digits, and ends or goes on here as the byte says."""
        value = self.value + ((byte & 127) << 7 * self.count)
        if byte < 128:
            return self.low <= value <= self.high and (byte > 0 or self.count == 0)
        unit = 1 << 7 * (self.count + 1)
        most = (self.high - value) // unit
        return most >= 1 and value + most * unit >= self.low

    def draw(self, random, is_short):
        if self.is_size:
            least = next(byte for byte in range(256) if self.permits(byte))
            more = 0 if is_short else random.choice((0, 0, 1, 1, 2, 3, 5))
            return least + more if self.permits(least + more) else least
        if self.count == 0 and random.random() < 0.3:
            self.wish = random.choice((self.low, self.high, max(self.low, self.high - 1)))
        if self.wish is not None:
            rest = self.wish >> 7 * self.count
            return rest if rest < 128 else rest % 128 + 128
        for _ in range(8):
            byte = random.randrange(256) if random.random() < 0.5 else random.randrange(128)
            if self.permits(byte):
                return byte
        return next(byte for byte in range(256) if self.permits(byte))


# Codes of instructions: without an operand, with the byte of a type, with a number, and with a number below a count.
PLAIN = {0x02, 0x03, 0x04, *range(0x10, 0x1E), 0x25, 0x26, 0x27, 0x28, 0x51, 0x52, 0x53, 0x60, 0x61}
TYPED = {*range(0x30, 0x43)}
NUMBERED = {0x01, 0x05, 0x24}
JUMPS = {0x20, 0x21, 0x22}
CALL = 0x23
MAKE_POOL = 0x50
CODES = PLAIN | TYPED | NUMBERED | JUMPS | {CALL}

FIRST = [Set({byte}) for byte in b"PAIM\x01"]
BIT = Set({0, 1}, {0})
TYPE = Set(range(8))
ANY_BYTE = Set(range(256))
LAST_BYTE = Set(range(1, 256))
CODE = Set(CODES, PLAIN)
CODE_WITH_KINDS = Set(CODES | {MAKE_POOL}, PLAIN)
LAST_CODE = Set({0x20, 0x25, 0x26, 0x27, 0x28}, {0x25, 0x26, 0x27, 0x28})


def number(low, high, is_size=False):
    digit = Digit(low, high, is_size)
    while True:
        byte = yield digit
        digit.add(byte)
        if byte < 128:
            return digit.value


def contents(count):
    for index in range(count):
        yield LAST_BYTE if index == count - 1 else ANY_BYTE


def kind():
    if (yield BIT) == 1:
        yield from number(1, 1048576)
        yield from number(1, 262144)
        yield BIT


def instruction(kinds, functions, count, is_last):
    code = yield LAST_CODE if is_last else CODE_WITH_KINDS if kinds else CODE
    if code in TYPED:
        yield TYPE
    elif code in NUMBERED:
        yield from number(0, 2**64 - 1)
    elif code in JUMPS:
        yield from number(0, count - 1)
    elif code == CALL:
        yield from number(0, functions - 1)
    elif code == MAKE_POOL:
        yield from number(0, kinds - 1)


def function(kinds, functions, is_start):
    yield from number(0, 0 if is_start else 320)
    yield from number(0, 67108864)
    yield from number(1, 65536)
    yield from number(0, 4294967295)
    count = yield from number(1, 4294967295, is_size=True)
    for index in range(count):
        yield from instruction(kinds, functions, count, index == count - 1)


def image():
    for choice in FIRST:
        yield choice
    yield from number(1, 1048576)
    yield from number(1, 4294967295)
    size = yield from number(0, 1073741824)
    yield from contents((yield from number(0, size, is_size=True)))
    kinds = yield from number(0, 1048576, is_size=True)
    for _ in range(kinds):
        yield from kind()
    functions = yield from number(1, 4097, is_size=True)
    for index in range(functions):
        yield from function(kinds, functions, index == 0)


def after(reader, byte):
    """The choice behind a byte, which is None at the end of an image."""
    try:
        return reader.send(byte)
    except StopIteration:
        return None


def follow(data, seen=None):
    """Goes along the bytes as far as an image does. Gives how many bytes are good, the reader there, and the choice of
    the next byte. Where a list is given, the choices of the good bytes are added to it."""
    reader = image()
    choice = next(reader)
    for place, byte in enumerate(data):
        if choice is None or not choice.permits(byte):
            return place, reader, choice
        if seen is not None:
            seen.append(choice)
        choice = after(reader, byte)
    return len(data), reader, choice


def fault(data):
    """The place of the first fault, or None where the bytes are an image's."""
    place, _, choice = follow(data)
    return None if place == len(data) and choice is None else place


def numbers(data):
    """Where each number of the good bytes begins and ends, and its range."""
    seen = []
    follow(data, seen)
    starts = [at for at, choice in enumerate(seen) if isinstance(choice, Digit) and (at == 0 or choice is not seen[at - 1])]
    return [(at, at + seen[at].count, seen[at].low, seen[at].high) for at in starts]


def complete(front, random, most, is_short):
    """Bytes with which the front, which has no fault, becomes an image's, at most so many; or None."""
    place, reader, choice = follow(front)
    assert place == len(front)
    found = bytearray()
    while choice is not None:
        if len(found) == most:
            return None
        byte = choice.draw(random, is_short)
        assert choice.permits(byte)
        found.append(byte)
        choice = after(reader, byte)
    return bytes(found)
