"""The tools that tests need beside Python and a POSIX system: whether one is there, and Debian's packages of each."""
import os
import shutil
import subprocess
import sys

PACKAGES = {
    "cc": "gcc libc6-dev",
    "chromedriver": "chromium-driver",
    "chromium": "chromium",
    "clang": "clang",
    "ffmpeg": "ffmpeg",
    "git": "git",
    "groff": "groff",
    "mandoc": "mandoc",
    "node": "nodejs",
    "npm": "npm",
    "parallel": "parallel",
    "pv": "pv",
    "qemu-aarch64-static": "qemu-user-static",
    "rustc": "rustc libstd-rust-dev-wasm32",
    "selenium": "python3-selenium",
    "setfacl": "acl",
    "tsc": "node-typescript",
    "wasm-ld": "lld",
    "wasm-objdump": "wabt",
    "wasm-validate": "wabt",
    "wat2wasm": "wabt",
    "xxd": "xxd",
    "zsh": "zsh",
}


def makes_carts(rustc):
    """Whether this rustc has the target of carts."""
    words = [rustc, "--target", "wasm32-unknown-unknown", "--print", "target-libdir"]
    try:
        said = subprocess.run(words, stdout=subprocess.PIPE, stderr=subprocess.DEVNULL, text=True)
    except OSError:
        return False
    return os.path.isdir(said.stdout.strip())


def has_selenium(python):
    """Whether this Python has the package selenium."""
    return shutil.which(python) is not None and subprocess.run([python, "-c", "import selenium"],
                                                               stderr=subprocess.DEVNULL).returncode == 0


def is_there(tool):
    """Whether a tool is there; of rustc one that makes carts, which examples/rust/build finds in the same places."""
    if tool == "rustc":
        return any(makes_carts(rustc) for rustc in (os.environ.get("RUSTC", "rustc"), "/usr/bin/rustc"))
    if tool == "selenium":
        return any(has_selenium(python) for python in (sys.executable, "/usr/bin/python3"))
    return shutil.which(tool) is not None


def packages_of(tools):
    """Debian's packages of these tools, each once."""
    return sorted({package for tool in tools for package in PACKAGES[tool].split()})
