"""The kit that proves and builds the program: where it is, what it is told, and the tools of LLVM within it."""
import hashlib
import pathlib
import shutil
import subprocess

TOP = pathlib.Path(__file__).resolve().parent.parent
OUT = TOP / "ports/out"
PROGRAM = "w4_program"
LINUX = "x86_64-unknown-linux-gnu"
LINUX_ON_ARM = "aarch64-unknown-linux-gnu"


class Refusal(Exception):
    """What can't be done, and what to do about it."""


class Absent(Refusal):
    """A tool that isn't there, and what brings it."""


def run(command, **how):
    """Runs a command. Returns what it wrote, on both streams; a Refusal where it fails."""
    command = [str(word) for word in command]
    try:
        done = subprocess.run(command, stdin=subprocess.DEVNULL, stdout=subprocess.PIPE, stderr=subprocess.STDOUT,
                              text=True, errors="replace", check=False, **how)
    except OSError as error:
        raise Refusal(f"{command[0]} can't be started: {error.strerror}") from error
    if done.returncode:
        raise Refusal(f"{' '.join(command)[:400]} ended with {done.returncode}:\n{done.stdout[-3000:]}")
    return done.stdout


def sum_of(file):
    return hashlib.sha256(file.read_bytes()).hexdigest()


def sources(checkout=TOP):
    """The sum of a checkout's sources, as release/BUILD has it."""
    return run([checkout / "release/sources"]).strip()


def libraries(checkout):
    """What each crate of a checkout stands on, by its crates.txt."""
    rows = (line.partition("#")[0].strip() for line in (checkout / "crates.txt").read_text().splitlines())
    parted = (row.partition(":") for row in rows if row)
    return {name.split()[0]: names.split() for name, _, names in parted}


class Kit:
    """The kit, which lies in one folder."""

    def __init__(self, folder):
        self.folder = folder
        self.toolchain = folder / "toolchain"
        self.clang = self.toolchain / "bin/clang"

    def version(self):
        return run(["rt", "version"]).strip()

    def tool(self, name, *words, **how):
        """Runs a tool of LLVM. They all are one file, which is the tool whose name it is started by."""
        return run([name, *words], executable=self.clang, **how)

    def crate_words(self, checkout):
        """What names the program and the proved libraries that `rt ci` left in a checkout, for `rattle build`."""
        all_libraries = libraries(checkout)
        made = {name: checkout / f"crates/{name}/out/rlib" for name in all_libraries if name != PROGRAM}
        words = ["--crate-name", PROGRAM, "src/main.rt", "--extern", f"std={self.folder}/rlibs/std.rlib"]
        for name in all_libraries[PROGRAM]:
            words += ["--extern", f"{name}={made.get(name, self.folder / 'rlibs')}/{name}.rlib"]
        for folder in (self.folder / "rlibs", *made.values()):
            words += ["-L", f"dependency={folder}"]
        return words

    def build(self, checkout, target, toolchain, to):
        """Proves the program over its proved libraries, and makes its object file. Returns what was said of that."""
        logic = ["--antt-project", self.folder / "rattle/logic/antt-project.json",
                 "--logic-built", self.folder / "logic_built"]
        return run([self.folder / "bin/rattle", "build", *self.crate_words(checkout), *logic, "--target", target,
                    "--toolchain", toolchain, "-o", to], cwd=checkout / "crates" / PROGRAM)

    def link(self, made, to):
        """Links an object file for Linux on x86-64 with the kit's C and glibc, as `rt` does."""
        own_c = [self.folder / "c" / name for name in ("libos_c.a", "liblibc_c.a")]
        run([self.folder / "bin/rattle-link", "--target", LINUX, "--toolchain", self.toolchain, "-o", to, made, *own_c])


def is_there():
    return shutil.which("rt") is not None


def find():
    """The kit whose command `rt` is on the PATH."""
    if not is_there():
        raise Absent("there is no command rt: docs/CONTRIBUTING.md says how the toolchain is installed")
    return Kit(pathlib.Path(run(["rt", "doc"]).strip()).parent)
