"""The digests that crates/base_tests/src/integers.rt compares with: what the operators give on all 8-bit operands and on the corners of each width.

An independent account of the rules: values are Python's integers, a conversion goes through bytes, and overflow is what
does not fit those bytes. Each answer is mixed into a digest in the manner of FNV-1a, by words of 64 bits: 0 and the
value of a result; 1, 2 and 3 for an overflow, a division by zero and a bad shift; the value of a total operator.

    python3 digests.py        prints the tables of crates/base_tests/src/integers.rt
"""

TYPES = [("Char", 1, True), ("UChar", 1, False), ("Short", 2, True), ("UShort", 2, False),
         ("Int", 4, True), ("UInt", 4, False), ("Long", 8, True), ("ULong", 8, False)]
OPERATORS = ["Add", "Sub", "Mul", "Div", "Rem", "Shl", "Shr", "And", "Or", "Xor"]
BYTES = range(256)
CORNERS = [0, 1, 2, 3] + [n for bits in (8, 16, 32, 64) for n in
                          (2 ** (bits - 1) - 1, 2 ** (bits - 1), 2 ** (bits - 1) + 1, 2 ** bits - 2, 2 ** bits - 1)]
AMOUNTS = [-1, 0, 1, 7, 8, 15, 16, 31, 32, 63, 64, 65, 2 ** 64, 2 ** 64 + 1, -(2 ** 100)]


class Undefined(Exception):
    def __init__(self, code):
        self.code = code


class Type:
    def __init__(self, size, signed):
        self.size, self.signed, self.width = size, signed, 8 * size

    def convert(self, n):
        low = bytes((n >> (8 * i)) & 255 for i in range(self.size))
        return int.from_bytes(low, "little", signed=self.signed)

    def bits(self, n):
        """The bits of a value, highest first."""
        return format(int.from_bytes(n.to_bytes(self.size, "little", signed=self.signed), "little"), f"0{self.width}b")

    def from_bits(self, bits):
        return self.convert(int(bits, 2))

    def holds(self, n):
        try:
            n.to_bytes(self.size, "little", signed=self.signed)
            return True
        except OverflowError:
            return False


def divided(a, b):
    """The quotient toward zero and the remainder."""
    count, rest = divmod(abs(a), abs(b))
    return (count if (a < 0) == (b < 0) else -count), (-rest if a < 0 else rest)


def bitwise(t, a, b, rule):
    return t.from_bits("".join("1" if rule(x == "1", y == "1") else "0" for x, y in zip(t.bits(a), t.bits(b))))


BITWISE = {"And": lambda x, y: x and y, "Or": lambda x, y: x or y, "Xor": lambda x, y: x != y}


def result(t, n):
    if t.holds(n):
        return n
    if t.signed:
        raise Undefined(1)
    return t.convert(n)


def binary(op, t, a, b):
    if op == "Add":
        return result(t, a + b)
    if op == "Sub":
        return result(t, a - b)
    if op == "Mul":
        return result(t, a * b)
    if op in ("Div", "Rem"):
        if b == 0:
            raise Undefined(2)
        count, rest = divided(a, b)
        result(t, count)
        return count if op == "Div" else rest
    if op in ("Shl", "Shr"):
        if b not in range(t.width):
            raise Undefined(3)
        if op == "Shr":
            sign = "1" if t.signed and a < 0 else "0"
            return t.from_bits((sign * b + t.bits(a))[: t.width])
        if t.signed and (a < 0 or not t.holds(a << b)):
            raise Undefined(3)
        return t.from_bits(("0" * t.width + t.bits(a) + "0" * b)[-t.width:])
    return bitwise(t, a, b, BITWISE[op])


def wrapped(op, t, a, b):
    left, right = t.convert(a), t.convert(b)
    if op == "Shl":
        return t.convert(left * 2 ** (b % t.width))
    if op == "Shr":
        return left // 2 ** (b % t.width)
    if op in BITWISE:
        return bitwise(t, left, right, BITWISE[op])
    if op in ("Div", "Rem"):
        if right == 0:
            return 0 if op == "Div" else left
        count, rest = divided(left, right)
        return t.convert(count if op == "Div" else rest)
    return t.convert({"Add": left + right, "Sub": left - right, "Mul": left * right}[op])


class Digest:
    def __init__(self):
        self.state = 0xCBF29CE484222325

    def mix(self, n):
        self.state = ((self.state ^ n % 2 ** 64) * 0x100000001B3) % 2 ** 64

    def answers(self, op, t, a, b, raw_a, raw_b):
        try:
            value = binary(op, t, a, b)
            self.mix(0)
            self.mix(value)
        except Undefined as undefined:
            self.mix(undefined.code)
        self.mix(wrapped(op, t, raw_a, raw_b))


def over(op, t, numbers):
    digest = Digest()
    for a in numbers:
        for b in numbers:
            digest.answers(op, t, t.convert(a), t.convert(b), a, b)
    return digest.state


def over_amounts(op, t):
    digest = Digest()
    for a in CORNERS:
        for b in AMOUNTS:
            digest.answers(op, t, t.convert(a), b, a, b)
    return digest.state


if __name__ == "__main__":
    print("EIGHT_BITS: operator, Char, UChar")
    for op in OPERATORS:
        print(f"    (BinOp::{op}, 0x{over(op, Type(1, True), BYTES):016x}, 0x{over(op, Type(1, False), BYTES):016x}),")
    print("CORNERS: type, the digest of the operators' digests, Shl and Shr by the amounts")
    for name, size, signed in TYPES:
        t = Type(size, signed)
        digest = Digest()
        for op in OPERATORS:
            digest.mix(over(op, t, CORNERS))
        print(f"    (IntType::{name}, 0x{digest.state:016x}, 0x{over_amounts('Shl', t):016x}, 0x{over_amounts('Shr', t):016x}),")
