"""Bytes of modules, for the scripts that write carts."""


def hexed(text):
    return bytes.fromhex(text)


def number(n):
    """An unsigned LEB128 number in its shortest spelling."""
    spelled = b""
    while n >= 128:
        spelled += bytes([n % 128 + 128])
        n //= 128
    return spelled + bytes([n])


def signed_number(n):
    """A signed LEB128 number in its shortest spelling."""
    spelled = b""
    while not -64 <= n < 64:
        spelled += bytes([n % 128 + 128])
        n //= 128
    return spelled + bytes([n % 128])


def section(kind, contents):
    return bytes([kind]) + number(len(contents)) + contents
