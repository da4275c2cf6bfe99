"""The LLVM module of the proved program `b`, which the kit's backend makes of its MIR and hands to a clang, and the
same module for another machine. tools/web and tools/machines use it.

The module is of plain functions: they call one another by their names, and those functions of C that stand in OF_C. So
it means the same on each machine with pointers of 64 bits, the least byte of a word first, and words aligned alike.
`retarget` changes the names of the machine alone, and stops at whatever could mean something else there."""
import hashlib
import os
import pathlib
import re
import shutil
import subprocess
import sys
from typing import NamedTuple

sys.dont_write_bytecode = True
from over_libraries import build, crate_of, kit

TOP = pathlib.Path(__file__).resolve().parent.parent
SOURCE, CPU = "x86_64-unknown-linux-gnu", "x86-64"
# As the kit calls its clang for each target.
AS_THE_KIT = ["-ffunction-sections", "-fdata-sections", "-mllvm", "-trap-unreachable", "-mllvm",
              "-no-x86-call-frame-opt", "-mllvm", "-disable-machine-licm", "-mllvm", "-disable-postra-machine-licm",
              "-mllvm", "-sink-common-insts=false", "--no-default-config", "-fno-crash-diagnostics", "-Werror"]

# A clang that keeps the module, and then does what it was called for.
KEEPING = """#!/bin/sh
for word; do case $word in module.bc) cp module.bc '{keep}' ;; esac; done
exec '{clang}' "$@"
"""

# What the module may call of C, and how: share/web and share/machines have each.
OF_C = set("""
{ i64, i64 } rattle_alloc(i64, i64)
{ i64, i64 } rattle_realloc(ptr, i64, i64, i64)
void rattle_dealloc(ptr)
i64 rattle_arg(i64, ptr, i64)
i64 rattle_arg_count()
i64 rattle_env(ptr, ptr, i64)
i64 rattle_env_at(i64, ptr, i64)
i32 rattle_errno()
void rattle_set_errno(i32)
i32 open(ptr, i32, ...)
i32 close(i32)
i64 read(i32, ptr, i64)
i64 write(i32, ptr, i64)
i64 lseek(i32, i64, i32)
i32 isatty(i32)
i64 __sysv_signal(i32, i64)
i32 __xpg_strerror_r(i32, ptr, i64)
""".strip().splitlines())

# What LLVM itself means the same everywhere.
OF_LLVM = re.compile(
    r"llvm\.(memset|memmove|memcpy|trap|assume|expect|lifetime\.(start|end)|arithmetic\.fence|abs|ct[lt]z|ctpop|bswap"
    r"|bitreverse|fsh[lr]|[su](min|max)|[su](add|sub|mul)\.(with\.overflow|sat)|vector\.reduce\.\w+)\.?[\w.]*"
)
DECLARED = re.compile(r"declare (?P<result>.+?) @(?P<name>[\w.$]+)\((?P<words>.*)\)")

# What has no meaning, or another one, on other machines.
ELSEWHERE = {
    "inline assembly": re.compile(r"\basm\b"),
    "an atomic or a fence": re.compile(r"\b(cmpxchg|atomicrmw|fence|atomic)\b"),
    "a variable of a thread": re.compile(r"\bthread_local\b"),
    "a number of one processor": re.compile(r"\b(x86_fp80|x86_amx|fp128|ppc_fp128|bfloat)\b"),
    "an alias": re.compile(r"\b(alias|ifunc)\b"),
    "a section": re.compile(r"\b(section|comdat|addrspace)\b"),
    "a call through a pointer": re.compile(r"\b(call|invoke)\b[^@]*?\s%[\w.]+\("),
    "a call that is made in another way": re.compile(r"\b(invoke|musttail|\w*win64cc|x86_\w+cc|cc \d+|\w*tailcc)\b"),
}
SUSPECT = re.compile("|".join(it.pattern for it in ELSEWHERE.values()))
# The attributes that name a machine; a module for another one has none of them.
OF_A_MACHINE = re.compile(
    r' "(probe-stack|stack-probe-size|target-cpu|target-features|tune-cpu|frame-pointer)"="[^"]*"'
)
# That of a clang that looks at addresses, for an unproved run.
OF_A_TRY = " sanitize_address"


def fail(text):
    raise SystemExit(f"{pathlib.Path(sys.argv[0]).name}: {text}")


def run(*words, **how):
    """Runs a command, and ends this process with what it said where it fails."""
    said = subprocess.run([str(it) for it in words], stdout=subprocess.PIPE, stderr=subprocess.STDOUT, **how)
    if said.returncode:
        sys.stderr.buffer.write(said.stdout)
        fail(f"this command failed: {' '.join(map(str, words))[:400]}")
    return said.stdout.decode(errors="replace")


class Toolchain:
    """The kit's toolchain, or a folder of links to it in which some commands are scripts."""

    def __init__(self, folder):
        self.folder = pathlib.Path(folder).resolve()

    def __getitem__(self, name):
        return self.folder / "bin" / name

    def with_scripts(self, folder, scripts):
        made = Toolchain(folder)
        (made.folder / "bin").mkdir(parents=True)
        (made.folder / "lib").symlink_to(self.folder / "lib")
        for it in (self.folder / "bin").iterdir():
            made[it.name].symlink_to(it)
        for name, text in scripts.items():
            made[name].unlink()
            made[name].write_text(text)
            made[name].chmod(0o755)
        return made


class Build(NamedTuple):
    """What a build has left: the verdict of the check, the object or archive, and the module that clang was given."""

    verdict: str
    object: pathlib.Path
    module: pathlib.Path


class Proved:
    """The proved program, or a crate that is a library for C, which is built anew over the libraries that stand: once
    for a target, in a folder that keeps what was made."""

    def __init__(self, folder, name="b"):
        self.folder, self.name = pathlib.Path(folder).resolve(), name
        self.sources = sources_digest(name)
        self.rtlib = kit() or fail("the kit on the path has another module than this knows")
        self.kit = pathlib.Path(self.rtlib.KIT)
        self.toolchain = Toolchain(self.kit / "toolchain")
        self.crate = None

    def build(self, target, more=()):
        room = self.folder / f"{self.name}-{target}"
        made = Build("", room / f"{self.name}.o", room / "module.bc")
        verdict, stamp = room / "verdict", f"{self.sources} {run('rt', 'version').strip()}\n"
        if not verdict.exists() or not verdict.read_text().startswith(stamp):
            shutil.rmtree(room, ignore_errors=True)
            room.mkdir(parents=True)
            verdict.write_text(stamp + self.check(made, ["--target", target, *more]))
        return made._replace(verdict=verdict.read_text()[len(stamp):])

    def check(self, made, more):
        """Checks and builds the crate, and returns the verdict."""
        self.crate = self.crate or crate_of(self.rtlib, self.name)
        script = KEEPING.format(keep=made.module, clang=self.toolchain["clang"])
        keeping = self.toolchain.with_scripts(made.object.parent / "toolchain", {"clang": script})
        with open(made.object.parent / "log", "w+") as log:
            for it in [self.crate, *self.crate.below()]:
                it.out = log
            try:
                build(self.rtlib, self.crate, made.object, toolchain=keeping.folder, more=more)
            except SystemExit:
                log.seek(0)
                sys.stderr.write(log.read())
                raise
            log.seek(0)
            return re.findall(r"^logic=proved .*", log.read(), re.M)[-1]

    def leave(self):
        """Lets other runs of the kit work in the folders of the crate, and of those below it."""
        for folder in self.crate.held if self.crate else ():
            os.close(folder)
        self.crate = None

    def facts(self, build):
        """What PROVED says of a build of the crate: of which sources it is, and by what."""
        return [
            f"sources (sha256 of the list of their digests): {self.sources}",
            f"the check of the crate {self.name}, over the proved libraries: {build.verdict}",
            f"what the backend made of it (sha256): {digest(build.module)}",
        ]

    def tell(self, folder, head, build, told):
        """Writes PROVED into a folder: what its files are, of which sources, by what, and their digests."""
        files = sorted(it for it in folder.rglob("*") if it.is_file() and it.name != "PROVED")
        lines = [
            head,
            f"commit: {run('git', 'rev-parse', 'HEAD', cwd=TOP).strip()}",
            f"kit: {run('rt', 'version').strip()}",
            *self.facts(build),
            *told,
            "the files (sha256):",
            *[f"{digest(it)}  {it.relative_to(folder)}" for it in files],
        ]
        (folder / "PROVED").write_text("\n".join(lines) + "\n")


def digest(path):
    return hashlib.sha256(pathlib.Path(path).read_bytes()).hexdigest()


def sources_digest(name):
    """The digest of the digests of all that a crate is built of, which for a program ./b keeps beside it."""
    crates = re.findall(r"^(\w+)", (TOP / "crates.txt").read_text(), re.M)
    below = crates[:crates.index(name) + 1]
    folders = [TOP / "crates" / it / part for it in below for part in ("src", "specs", "proofs")]
    files = [it for folder in folders for it in folder.rglob("*") if it.is_file()]
    names = sorted(str(it.relative_to(TOP)) for it in [TOP / "crates.txt", *files])
    digests = [f"{digest(TOP / it)}  {it}\n" for it in names]
    return hashlib.sha256("".join(digests).encode()).hexdigest()


def layout_of(toolchain, target):
    """How the kit's clang lays words out for a target."""
    said = run(toolchain["clang"], f"--target={target}", "--no-default-config", "-x", "c", "-S", "-emit-llvm",
               "-o", "-", os.devnull)
    return re.search(r'^target datalayout = "(.*)"', said, re.M)[1]


def has_same_words(layout):
    """Whether pointers have 64 bits, the least byte of a word is the first, and words are aligned as for x86-64."""
    parts = layout.split("-")
    pointers = [it for it in parts if it.startswith("p:")]
    return parts[0] == "e" and pointers in ([], ["p:64:64"]) and {"i64:64", "i128:128", "S128"} <= set(parts)


def declared(line):
    """A declaration without attributes: how the function is called."""
    found = DECLARED.match(line)
    words = [it.split()[0] for it in found["words"].split(", ") if it]
    return f"{found['result'].replace('noundef ', '')} {found['name']}({', '.join(words)})"


def wrong_in(line):
    """What in a line would mean something else on another machine, or None."""
    if line.startswith("declare "):
        name = DECLARED.match(line)["name"]
        return None if OF_LLVM.fullmatch(name) or declared(line) in OF_C else "a function that isn't known here"
    if line.startswith("attributes "):
        return 'an attribute of one machine' if '"' in OF_A_MACHINE.sub("", line) else None
    if not SUSPECT.search(line):
        return None
    plain = re.sub(r'@[\w.$]+|"[^"]*"', "@name", line)
    return next((what for what, shape in ELSEWHERE.items() if shape.search(plain)), None)


def for_target(line, target, layout):
    """A line of the module, for the target."""
    if line.startswith("target datalayout"):
        return f'target datalayout = "{layout}"\n'
    if line.startswith("target triple"):
        return f'target triple = "{target}"\n'
    if line.startswith("attributes "):
        return OF_A_MACHINE.sub("", line).replace(OF_A_TRY, "").replace("{ }", "{ nounwind }")
    return line.replace("@main()", "@b_main()") if line.startswith("define ") else line


def retarget(toolchain, module, target, to, change=lambda line: line):
    """Writes the module as LLVM text for another target, where its `main` is called `b_main`. `change` is made to each
    line after that."""
    text = pathlib.Path(f"{to}.source")
    run(toolchain["clang"], f"--target={SOURCE}", "--no-default-config", "-x", "ir", module, "-S", "-emit-llvm", "-O1",
        "-Xclang", "-disable-llvm-passes", "-o", text)
    old, new = layout_of(toolchain, SOURCE), layout_of(toolchain, target)
    if not has_same_words(old) or not has_same_words(new):
        fail(f"words are laid out otherwise for {target}: {new}")
    said = 0
    with open(text, encoding="utf-8", errors="surrogateescape") as lines:
        with open(to, "w", encoding="utf-8", errors="surrogateescape") as out:
            for line in lines:
                if line.startswith("target datalayout") and f'"{old}"' not in line:
                    fail(f"the module isn't of {SOURCE}: {line}")
                wrong = wrong_in(line)
                if wrong and said < 10:
                    print(f"retarget: {wrong}: {line.strip()[:160]}", file=sys.stderr)
                said += wrong is not None
                out.write(change(for_target(line, target, new)))
    text.unlink()
    if said:
        fail(f"{said} lines of the module may mean something else on {target}")


# The calls whose names or numbers are others than on Linux. share/machines/system.c has them as b_read and so on.
OF_LINUX = re.compile(r"@(read|write|open|close|lseek|isatty|__sysv_signal|__xpg_strerror_r)\(")
OF_TWO_WORDS = re.compile(r"\b(call|declare) (\{ i64, i64 \} @rattle_(re)?alloc\()")


def renamed(line):
    return OF_LINUX.sub(r"@b_\1(", line) if line.startswith("declare ") or " call " in line else line


def sysv(line):
    """Two words are answered in registers, which a compiler for Windows does only where it is told to."""
    return OF_TWO_WORDS.sub(r"\1 x86_64_sysvcc \2", line)
