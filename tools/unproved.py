"""A program that nothing has proved, or the tests of a crate: the module that `rt try` hands to LLVM. tools/quick-trial
and tools/try-all use it."""
import pathlib
import re
import shutil
import subprocess
import sys
import time

sys.dont_write_bytecode = True
from over_libraries import kit
from program_module import AS_THE_KIT, SOURCE, Toolchain, fail, run

# Keeps the module of the program, which is the one large one, and compiles only others.
KEEPS = """#!/bin/sh
if [ -f module.bc ] && [ "$(wc -c <module.bc)" -gt {least} ]; then
    cp module.bc '{kept}.part' && mv '{kept}.part' '{kept}' && exit 1
fi
exec '{clang}' "$@"
"""
LEAST = 1_000_000
# `rt try` asks for a check, too, whose answer nobody reads here.
CHECKS_NOTHING = "#!/bin/sh\nexit 0\n"
# What an unproved run has beside the program: its checks, and the bytes that fill what was not written yet.
OF_A_TRY = re.compile(r'  call void (@"rattle-llvm-checks::|@llvm\.trap\(\)|@llvm\.memset\.[\w.]*\(ptr %r\d+, i8 -86,)')


def linked_kit(folder, kept):
    """Makes a folder of links to the kit, in which the clang keeps what it is given."""
    own, toolchain = pathlib.Path(kit().KIT), folder / "toolchain"
    (folder / "bin").mkdir(parents=True)
    for it in own.iterdir():
        if it.name not in ("bin", "toolchain"):
            (folder / it.name).symlink_to(it)
    for it in (own / "bin").iterdir():
        # `rt` takes the folder above its own file for the kit.
        shutil.copy(it, folder / "bin") if it.name.startswith("rt") else (folder / "bin" / it.name).symlink_to(it)
    (folder / "bin/rattle").unlink()
    (folder / "bin/rattle").write_text(CHECKS_NOTHING)
    (folder / "bin/rattle").chmod(0o755)
    links = Toolchain(own / "toolchain")
    links.with_scripts(toolchain, {"clang": KEEPS.format(least=LEAST, kept=kept, clang=links["clang"])})
    return folder


def module_of(crate, room, words):
    """The text of the module that `rt try` makes in the folder of a crate. What it would run isn't run."""
    kept, text, said = room / "kept.bc", room / "module.ll", room / "said"
    with open(said, "wb") as out:
        trying = subprocess.Popen([linked_kit(room / "kit", kept) / "bin/rt", "try", *words], cwd=crate, stdout=out,
                                  stdin=subprocess.DEVNULL, stderr=subprocess.STDOUT)
        while not kept.exists() and trying.poll() is None:
            time.sleep(0.1)
        trying.terminate()
        trying.wait()
    if not kept.exists():
        fail(f"`rt try` made no module of {crate.name}:\n{said.read_text(errors='replace')[-4000:]}")
    run(toolchain()["clang"], f"--target={SOURCE}", "--no-default-config", "-x", "ir", kept, "-S", "-emit-llvm", "-O1",
        "-Xclang", "-disable-llvm-passes", "-o", text)
    return text


def toolchain():
    return Toolchain(pathlib.Path(kit().KIT) / "toolchain")


def compiled(text, to, flags):
    """Compiles the text of a module to an object."""
    folder = toolchain().folder
    run(folder / "bin/clang", f"--target={SOURCE}", f"--sysroot={folder}", *AS_THE_KIT, *flags, "-c", "-x", "ir", text,
        "-o", to)


def linked(program, object_file):
    own = pathlib.Path(kit().KIT)
    run(own / "bin/rattle-link", "--target", SOURCE, "--toolchain", own / "toolchain", "-o", program, object_file,
        own / "c/libos_c.a", own / "c/liblibc_c.a")


def made_quickly(crate, room, words):
    """The program of a crate, or with --test its tests, compiled as quickly as LLVM can, and without the checks of an
    unproved run, which take most of its time."""
    plain, program = room / "plain.ll", room / crate.name
    with open(module_of(crate, room, words), "rb") as lines, open(plain, "wb") as out:
        out.writelines(it for it in lines if not OF_A_TRY.match(it.decode("latin-1")))
    compiled(plain, f"{program}.o", ["-march=x86-64", "-fPIE", "-O0"])
    linked(program, f"{program}.o")
    return program
