"""Makes the function table of a WebAssembly module, which wasm-ld gave 64 bits with the memory, one of 32 bits.

Node 20 and binaryen 108 know no other. The index of each indirect call is wrapped, and the offset of the elements
becomes a number of 32 bits; nothing else changes. Only what clang and wasm-ld make of the program is understood.
"""

TABLE, ELEMENTS, CODE = 4, 9, 10
IS_64 = 4  # the flag of a table or a memory
CALL_INDIRECT, I32_CONST, I64_CONST, I32_WRAP, PREFIX = 0x11, 0x41, 0x42, 0xA7, 0xFC

# What follows an operation: n is a number, f and d are constants of 4 and 8 bytes, l a list of numbers and one more.
FOLLOWS = {
    **dict.fromkeys((0x02, 0x03, 0x04), "n"),                             # block, loop, if
    **dict.fromkeys((0x0C, 0x0D, 0x10), "n"), 0x0E: "l", 0x11: "nn",      # br, br_if, call, br_table, call_indirect
    **dict.fromkeys(range(0x20, 0x27), "n"),                              # variables and tables
    **dict.fromkeys(range(0x28, 0x3F), "nn"), 0x3F: "n", 0x40: "n",       # memory
    0x41: "n", 0x42: "n", 0x43: "f", 0x44: "d",                           # constants
}
FOLLOWS_PREFIX = {**dict.fromkeys(range(8), ""), 8: "nn", 9: "n", 10: "nn", 11: "n"}  # truncations, bulk memory
PLAIN = {0x00, 0x01, 0x05, 0x0B, 0x0F, 0x1A, 0x1B, *range(0x45, 0xC5)}


class Unknown(ValueError):
    """Something that isn't understood."""


class Reader:
    """Bytes that are read from the start."""

    def __init__(self, data):
        self.data, self.at = data, 0

    def is_at_end(self):
        return self.at == len(self.data)

    def byte(self):
        self.at += 1
        return self.data[self.at - 1]

    def take(self, count):
        self.at += count
        return self.data[self.at - count:self.at]

    def number(self):
        """An unsigned number in LEB128; of a signed one only the place behind it is right."""
        value = shift = 0
        while True:
            byte = self.byte()
            value |= (byte & 0x7F) << shift
            shift += 7
            if byte < 0x80:
                return value

    def skip(self, kinds):
        for kind in kinds:
            if kind == "n":
                self.number()
            elif kind == "l":
                self.skip("n" * (self.number() + 1))
            else:
                self.take({"f": 4, "d": 8}[kind])


def encoded(number):
    """A number in LEB128, in as few bytes as it takes."""
    made = bytearray()
    while number >= 0x80:
        made.append(number & 0x7F | 0x80)
        number >>= 7
    return bytes([*made, number])


def skip_operation(reader, operation):
    """Goes behind what follows an operation."""
    if operation == PREFIX:
        kinds = FOLLOWS_PREFIX.get(reader.number())
    else:
        kinds = "" if operation in PLAIN else FOLLOWS.get(operation)
    if kinds is None:
        raise Unknown(f"the operation {operation:#x}")
    reader.skip(kinds)


def body_with_wrapped_calls(body):
    """A function's body whose indirect calls take an index of 32 bits, and how many it has."""
    reader = Reader(body)
    for _ in range(reader.number()):
        reader.skip("n")
        reader.byte()
    made, written, calls = bytearray(), 0, 0
    while not reader.is_at_end():
        at = reader.at
        operation = reader.byte()
        skip_operation(reader, operation)
        if operation == CALL_INDIRECT:
            made += body[written:at] + bytes([I32_WRAP])
            written, calls = at, calls + 1
    return bytes(made) + body[written:], calls


def code_with_wrapped_calls(section):
    reader = Reader(section)
    count = reader.number()
    made, calls = bytearray(encoded(count)), 0
    for _ in range(count):
        body, more = body_with_wrapped_calls(reader.take(reader.number()))
        made += encoded(len(body)) + body
        calls += more
    return bytes(made), calls


def table_of_32(section):
    if section[:2] != b"\x01\x70":
        raise Unknown("more than one table of functions")
    return section[:2] + bytes([section[2] & ~IS_64]) + section[3:]


def elements_at_32(section):
    if section[:3] != bytes([1, 0, I64_CONST]):
        raise Unknown("more than one list of elements, or one without a constant offset")
    return section[:2] + bytes([I32_CONST]) + section[3:]


def with_table_of_32(module):
    """The module with its table of 32 bits, and the count of its indirect calls."""
    reader = Reader(module)
    made, calls = bytearray(reader.take(8)), 0
    while not reader.is_at_end():
        kind = reader.byte()
        section = reader.take(reader.number())
        if kind == TABLE:
            section = table_of_32(section)
        elif kind == ELEMENTS:
            section = elements_at_32(section)
        elif kind == CODE:
            section, calls = code_with_wrapped_calls(section)
        made += bytes([kind]) + encoded(len(section)) + section
    return bytes(made), calls
