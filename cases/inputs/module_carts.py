#!/usr/bin/env python3
"""Writes the carts of profile/ and module/ beside it, section by section, by the binary format of WebAssembly
(Core Specification, chapter 5). It knows no verdict: the cases say what is wanted of each cart.

    python3 module_carts.py
"""
import hashlib
import os

HERE = os.path.dirname(os.path.abspath(__file__))

I32, I64, F32, F64 = 0x7F, 0x7E, 0x7D, 0x7C
FUNC, TABLE, MEMORY, GLOBAL = range(4)


def number(value):
    """An unsigned number in its shortest spelling."""
    low, rest = value & 0x7F, value >> 7
    return bytes([low | 0x80]) + number(rest) if rest else bytes([low])


def signed(value):
    low, rest = value & 0x7F, value >> 7
    ends = rest == 0 and not low & 0x40 or rest == -1 and low & 0x40
    return bytes([low]) if ends else bytes([low | 0x80]) + signed(rest)


def int32(value):
    """`i32.const`, of a number that is read unsigned."""
    return b"\x41" + signed(value - 2**32 if value >= 2**31 else value)


def int64(value):
    return b"\x42" + signed(value)


FLOAT = b"\x44" + bytes(8)
DROP = b"\x1a"
NOTHING = b""


def vector(items):
    return number(len(items)) + b"".join(items)


def name(text):
    return number(len(text)) + text.encode()


def limits(least, greatest=None):
    return b"\x00" + number(least) if greatest is None else b"\x01" + number(least) + number(greatest)


def signature(params=(), results=()):
    return b"\x60" + vector([bytes([kind]) for kind in params]) + vector([bytes([kind]) for kind in results])


def entry(module, field, kind, what):
    return name(module) + name(field) + bytes([kind]) + what


def function(module, field, index):
    return entry(module, field, FUNC, number(index))


def pages(least, greatest=None):
    return entry("env", "memory", MEMORY, limits(least, greatest))


def of_global(kind, first, mutable=False):
    return bytes([kind, mutable]) + first + b"\x0b"


def export(text, kind, index):
    return name(text) + bytes([kind]) + number(index)


def elements(offset, functions, table=0):
    return number(table) + offset + b"\x0b" + vector([number(func) for func in functions])


def data(offset, content, memory=0):
    return number(memory) + offset + b"\x0b" + number(len(content)) + content


def body(instructions=NOTHING, runs=()):
    inside = vector([number(count) + bytes([kind]) for count, kind in runs]) + instructions + b"\x0b"
    return number(len(inside)) + inside


def section(number_of, content):
    return bytes([number_of]) + number(len(content)) + content


# Types 0 to 4: none, one i32, an i64 that gives an i32, one i32 again, two i32 that give one.
TYPES = [
    signature(),
    signature([I32]),
    signature([I64], [I32]),
    signature([I32]),
    signature([I32, I32], [I32]),
]
UPDATE = export("update", FUNC, 0)


def cart(
    types=TYPES,
    imports=(pages(1),),
    functions=(0,),
    tables=(),
    memories=(),
    globals_of=(),
    exports=(UPDATE,),
    start=None,
    segments=(),
    bodies=None,
    contents=(),
):
    """A module; where nothing else is said, its one function does nothing, and is `update`."""
    bodies = [body()] * len(functions) if bodies is None else bodies
    lists = [
        (1, types),
        (2, imports),
        (3, [number(index) for index in functions]),
        (4, [b"\x70" + size for size in tables]),
        (5, memories),
        (6, globals_of),
        (7, exports),
        (8, start),
        (9, segments),
        (10, bodies),
        (11, contents),
    ]
    module = b"\x00asm\x01\x00\x00\x00"
    for number_of, items in lists:
        if number_of == 8:
            module += section(8, number(start)) if start is not None else b""
        elif items:
            module += section(number_of, vector(list(items)))
    return module


def locals_of(*runs):
    return cart(bodies=[body(runs=runs)])


def placed(size, at, offset):
    """A table, two of its entries, and three bytes of data."""
    return cart(
        tables=[limits(size)],
        segments=[elements(int32(at), [0, 0])],
        contents=[data(int32(offset), b"abc")],
    )


def imported(what, update=1):
    """One more import, behind which the own function has this index."""
    return cart(imports=[pages(1), what], exports=[export("update", FUNC, update)])


def exported(text, kind, index):
    return cart(exports=[UPDATE, export(text, kind, index)])


def filled(offset, functions=(0,), table=0, tables=1):
    return cart(tables=[limits(2)] * tables, segments=[elements(offset, functions, table)])


def with_global(kind, first):
    return cart(globals_of=[of_global(kind, first)])


def with_data(offset, content=b"abc", memory=0):
    return cart(contents=[data(offset, content, memory)])


def started(index, start=None):
    return cart(functions=[0, index], start=start)


TRACE = function("env", "trace", 1)

# Texts of the cart that tells its parts, one a place of 32 bytes.
TEXTS = ["start function", "_start", "_initialize", "start"]
TEXTS += ["entry 1", "entry 2, put twice", "i32 global", "i64 global"]
OVERWRITTEN = "entry 2, put once"


def place_of(text):
    return 8192 + 32 * TEXTS.index(text)


def tell(text):
    """Traces a text that stands in the page."""
    return int32(place_of(text)) + b"\x10\x00"


def tells_its_parts():
    """It traces from each entry, from two entries of its table, and what its two globals are."""
    update = int32(1) + b"\x11\x00\x00" + int32(2) + b"\x11\x00\x00"  # call_indirect
    update += b"\x23\x00\x10\x00"  # the i32 global is the place of its text
    update += b"\x23\x01" + int64(-1) + b"\x51\x04\x40" + tell("i64 global") + b"\x0b"  # if it is 2^64 - 1
    bodies = [body(update)] + [body(tell(text)) for text in TEXTS[:4]]
    bodies += [body(tell("entry 1")), body(b"\x00"), body(tell("entry 2, put twice"))]
    late = data(int32(place_of("entry 2, put twice")), b"entry 2, put twice\0")
    return cart(
        imports=[pages(1), TRACE],
        functions=[0] * 8,
        tables=[limits(4)],
        globals_of=[of_global(I32, int32(place_of("i32 global"))), of_global(I64, int64(-1), True)],
        exports=[
            export("start", FUNC, 5),
            export("_initialize", FUNC, 4),
            export("_start", FUNC, 3),
            export("update", FUNC, 1),
        ],
        start=2,
        segments=[elements(int32(1), [6, 7, 7]), elements(int32(2), [8])],
        bodies=bodies,
        contents=[data(int32(8192), b"".join(padded(text) for text in TEXTS)), late],
    )


def padded(text):
    first = OVERWRITTEN if text == "entry 2, put twice" else text
    return first.encode().ljust(32, b"\0")


def recording(of_cart):
    """A recording of version 1 with a budget of 100,000, no disk and one input of zeros."""
    budget, frames = (100_000).to_bytes(4, "little"), (1).to_bytes(4, "little")
    return b"W4RC\x01" + hashlib.sha256(of_cart).digest() + budget + bytes(2) + frames + bytes(9)


PROFILE = {
    # locals
    "locals_1024": locals_of((1024, I32)),
    "locals_1025": locals_of((1000, I64), (25, I32)),
    "locals_1025_and_a_parameter": cart(functions=[0, 1], bodies=[body(), body(runs=[(1024, I32)])]),
    "locals_4294967295": locals_of((2**32 - 1, I32)),
    # sizes
    "segments_at_the_ends": placed(65536, 65534, 65533),
    "table_65537": placed(65537, 0, 0),
    "table_4294967295": placed(2**32 - 1, 0, 0),
    "data_past_the_page": placed(65536, 65534, 65534),
    "elements_past_the_table": placed(65536, 65535, 65534),
    "elements_at_4294967295": placed(0, 2**32 - 1, 0),
    "empty_data_at_65536": with_data(int32(65536), b""),
    "empty_data_at_65537": with_data(int32(65537), b""),
    # imports
    "import_trace": imported(TRACE),
    "import_diskr": imported(function("env", "diskr", 4)),
    "import_trace_memory": imported(entry("env", "trace", MEMORY, limits(0)), 0),
    "import_diskr_of_traces_type": imported(function("env", "diskr", 1)),
    "import_trace_of_no_type": imported(function("env", "trace", 5)),
    "import_traces": imported(function("env", "traces", 1)),
    "import_from_wasi": imported(function("wasi", "trace", 1)),
    "memory_at_most_1": cart(imports=[pages(1, 1)]),
    "memory_at_most_0": cart(imports=[pages(0, 0)]),
    "memory_2": cart(imports=[pages(2)]),
    "no_memory": cart(imports=[TRACE], exports=[export("update", FUNC, 1)]),
    "no_memory_and_no_update": cart(imports=[TRACE], exports=[]),
    # exports
    "no_exports": cart(exports=[]),
    "start_alone": cart(exports=[export("start", FUNC, 0)]),
    "start_too": exported("start", FUNC, 0),
    "start_of_no_function": exported("start", FUNC, 1),
    "start_a_memory": exported("start", MEMORY, 0),
    "crt_start_a_global": exported("_start", GLOBAL, 0),
    "initialize_a_table": exported("_initialize", TABLE, 0),
    "update_a_memory": cart(exports=[export("update", MEMORY, 0)]),
    "update_an_import": imported(function("env", "diskr", 4), 0),
    "starts_a_memory": exported("starts", MEMORY, 0),
    # floats
    "float_in_a_type": cart(types=[signature(), signature([F32])]),
    "float_in_a_result": cart(types=[signature(), signature([], [F64])]),
    "float_in_an_import": cart(imports=[pages(1), entry("env", "x", GLOBAL, bytes([F64, 1]))]),
    "float_in_a_global": with_global(F64, int32(0)),
    "float_in_a_first_value": with_global(I32, FLOAT),
    "float_in_an_element_offset": filled(FLOAT, []),
    "float_in_a_data_offset": with_data(FLOAT),
    "float_in_a_body": cart(bodies=[body(FLOAT + DROP)]),
    "float_in_a_block_type": cart(bodies=[body(b"\x02\x7d\x00\x0b" + DROP)]),
    "float_in_no_locals": locals_of((0, F32)),
    # of two causes the first
    "floats_and_many_locals": locals_of((1025, F64)),
    "many_locals_and_a_large_table": cart(tables=[limits(65537)], bodies=[body(runs=[(1025, I32)])]),
    "large_table_and_an_unknown_import": cart(
        imports=[pages(1), function("env", "traces", 1)],
        tables=[limits(65537)],
        exports=[export("update", FUNC, 1)],
    ),
    "wrong_import_before_an_unknown_one": cart(imports=[pages(2), function("env", "traces", 1)]),
    "wrong_import_and_no_memory": cart(
        imports=[function("env", "trace", 0)],
        exports=[export("update", FUNC, 1)],
    ),
    "no_update_and_a_wrong_entry": cart(exports=[export("start", MEMORY, 0)]),
    "wrong_entry_and_a_segment_outside": cart(
        exports=[UPDATE, export("start", MEMORY, 0)],
        contents=[data(int32(65534), b"abc")],
    ),
    "segment_outside_and_two_tables": cart(tables=[limits(2)] * 2, segments=[elements(int32(1), [0, 0])]),
}

MODULE = {
    "tells_its_parts": tells_its_parts(),
    # functions and the start function
    "types_of_one_i32": started(1),
    "function_of_no_type": started(5),
    "start_of_no_parameters": started(0, 1),
    "start_of_a_parameter": started(1, 1),
    "start_of_a_result": cart(
        types=[signature(), signature([], [I32])],
        functions=[0, 1],
        start=1,
        bodies=[body(), body(int32(0))],
    ),
    "start_that_is_not_there": started(0, 2),
    # one table, one memory
    "one_table": cart(tables=[limits(2)]),
    "two_tables": cart(tables=[limits(2)] * 2),
    "table_from_2_to_2": cart(tables=[limits(2, 2)]),
    "table_from_2_to_1": cart(tables=[limits(2, 1)]),
    "memory_at_most_65536": cart(imports=[pages(1, 65536)]),
    "memory_at_most_65537": cart(imports=[pages(1, 65537)]),
    "two_memories": cart(memories=[limits(0)]),
    # globals
    "global_i32": with_global(I32, int32(1)),
    "global_i64": with_global(I64, int64(1)),
    "global_i64_from_i32": with_global(I64, int32(1)),
    "global_from_nothing": with_global(I32, NOTHING),
    "global_from_two_constants": with_global(I32, int32(1) + int32(1)),
    # exports
    "export_a_function": exported("x", FUNC, 0),
    "export_no_function": exported("x", FUNC, 1),
    "export_the_memory": exported("x", MEMORY, 0),
    "export_no_memory": exported("x", MEMORY, 1),
    "export_no_table": exported("x", TABLE, 0),
    "export_no_global": exported("x", GLOBAL, 0),
    "export_names_apart": cart(exports=[UPDATE, export("x", FUNC, 0), export("y", FUNC, 0)]),
    "export_names_equal": cart(exports=[UPDATE, export("x", FUNC, 0), export("x", MEMORY, 0)]),
    # element segments
    "elements": filled(int32(1)),
    "elements_of_no_function": filled(int32(1), [1]),
    "elements_of_table_1": filled(int32(1), [0], 1),
    "elements_at_nothing": filled(NOTHING),
    "elements_at_an_i64": filled(int64(1)),
    "elements_without_a_table": filled(int32(0), [], tables=0),
    # data segments
    "data": with_data(int32(1)),
    "data_in_memory_1": with_data(int32(1), memory=1),
    "data_at_an_i64": with_data(int64(1)),
    "data_at_nothing": with_data(NOTHING),
    # the first function without a typing, and module rules before it
    "functions_without_a_result": cart(functions=[0, 2, 2]),
    "functions_without_a_result_and_no_start": cart(functions=[0, 2, 2], start=3),
    "function_without_a_result_behind_an_import": cart(
        imports=[pages(1), TRACE],
        functions=[0, 2],
        exports=[export("update", FUNC, 1)],
    ),
}


def main():
    for folder, carts in (("profile", PROFILE), ("module", MODULE)):
        os.makedirs(os.path.join(HERE, folder), exist_ok=True)
        for title, content in carts.items():
            with open(os.path.join(HERE, folder, title.replace("_", "-") + ".wasm"), "wb") as file:
                file.write(content)
    with open(os.path.join(HERE, "module", "tells-its-parts.w4rec"), "wb") as file:
        file.write(recording(MODULE["tells_its_parts"]))


main()
