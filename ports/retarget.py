"""Rewrites the program's LLVM module for WebAssembly. What a function does stays as it is: only what says for which
machine it is changes, and the name of `main`."""
import re

TRIPLE = "wasm64-unknown-unknown"
LAYOUT = "e-m:e-p:64:64-p10:8:8-p20:8:8-i64:64-i128:128-n32:64-S128-ni:1:10:20"

# Attributes of functions that speak of x86-64, or of its stack.
OF_MACHINE = re.compile(
    r' ?"(?:target-cpu|target-features|tune-cpu|probe-stack|stack-probe-size|frame-pointer)"="[^"]*"')

# ports/wasm/start.c calls it by this name, since `main` has words of its own in C for WebAssembly.
MAIN = "define i32 @main()"
OWN_MAIN = "define i32 @program_main()"

# Clang for x86-64 inlines this function into the machine's loop by itself, and for WebAssembly it stops short, which
# takes three times as long.
INLINED = '@"wasm_step::table::execute"('


def line_for_wasm(line):
    if line.startswith("target datalayout"):
        return f'target datalayout = "{LAYOUT}"\n'
    if line.startswith("target triple"):
        return f'target triple = "{TRIPLE}"\n'
    if line.startswith("attributes #"):
        return OF_MACHINE.sub("", line)
    if line.startswith("define "):
        if INLINED in line and "alwaysinline" not in line:
            line = line.replace(") #", ") alwaysinline #", 1)
        return line.replace(MAIN, OWN_MAIN)
    return line


def for_wasm(text):
    """The text of a module, for WebAssembly with a memory of 64 bits."""
    return "".join(line_for_wasm(line) for line in text.splitlines(True))
