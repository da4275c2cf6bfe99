"""The archives of what is handed out, each as its system expects it. tools/pack makes them by this.

Each is made of a folder of parts: what tools/machines, tools/web and tools/library wrote. Without its part an archive
isn't made. The same parts give the same bytes: files stand in order, with one time and without an owner."""
import base64
import gzip
import hashlib
import io
import json
import os
import pathlib
import re
import shutil
import subprocess
import tarfile
import time
import zipfile
from typing import NamedTuple

import course

TOP = pathlib.Path(__file__).resolve().parent.parent
SHARE = TOP / "share/pack"
SUMMARY = "proved compiler of the language B, and the machine that runs its code"
MAINTAINER = "Zirpaune maintainers <maintainers@users.noreply.zirpaune.example>"
# The two processors: as Linux calls them, as Debian does, the folder of their libraries there, and what wheels name.
AMD64 = ("x86_64", "amd64", "x86_64-linux-gnu")
ARM64 = ("aarch64", "arm64", "aarch64-linux-gnu")
# In `share/python`, what is for authors of compilers in Python.
FOR_AUTHORS = ("bcode.py", "pebble.py")
# Of the exercises, what no pupil should read: the archive for teachers has it.
FOR_TEACHERS = ("solutions", "drawn")
# The oldest glibc for which a wheel can be told to be, 2.17.
GLIBC = 17
COPYRIGHT = """The owner of Zirpaune, the program b, hasn't chosen a licence yet. Ask before you hand it on.
"""


class Pack(NamedTuple):
    """What is packed: the version, the time that files get, the folder of parts, the folder of the archives, and lines
    for PROVED."""

    version: str
    time: int
    parts: pathlib.Path
    out: pathlib.Path
    said: list

    def part(self, name):
        """The folder of a part, or None where it wasn't made."""
        folder = self.parts / name
        return folder if folder.is_dir() else None

    def begin(self, name):
        """An empty folder, of which an archive is made."""
        folder = self.parts / "packed" / name
        shutil.rmtree(folder, ignore_errors=True)
        folder.mkdir(parents=True)
        return folder


NO_CACHE = shutil.ignore_patterns("__pycache__")


def copy(to, *sources):
    """Copies files, and folders with all that is in them."""
    to.mkdir(parents=True, exist_ok=True)
    for source in sources:
        if source.is_dir():
            shutil.copytree(source, to / source.name, symlinks=True, dirs_exist_ok=True, ignore=NO_CACHE)
        else:
            shutil.copy(source, to / source.name, follow_symlinks=False)


def entries(folder):
    """What is in a folder, by its path there, in order. A file can be read by all, and is run or not."""
    found = []
    for path in sorted(folder.rglob("*")):
        if not path.is_symlink():
            is_run = path.is_dir() or path.stat().st_mode & 0o100
            path.chmod(0o755 if is_run else 0o644)
        found.append((path.relative_to(folder).as_posix(), path))
    return found


def digest(path):
    return hashlib.sha256(path.read_bytes()).hexdigest()


def tell(pack, folder, part_names, command="sha256sum -c PROVED"):
    """Writes PROVED: what is known of the programs as comments, and the digest of each file for sha256sum -c."""
    lines = [f"To compare all files with their digests: {command}", *pack.said]
    for name in part_names:
        told = pack.parts / name / "PROVED"
        lines += ["", f"{name}:", *told.read_text().splitlines()] if told.exists() else []
    files = [(name, path) for name, path in entries(folder) if path.is_file() and not path.is_symlink()]
    text = "".join(f"# {line}".rstrip() + "\n" for line in lines)
    (folder / "PROVED").write_text(text + "".join(f"{digest(path)}  {name}\n" for name, path in files))


def tar(pack, folder, to, top):
    """Writes a folder as an archive, in which it has this name."""
    file = io.BytesIO()
    with tarfile.open(fileobj=file, mode="w", format=tarfile.GNU_FORMAT) as made:
        for name, path in [("", folder), *entries(folder)]:
            entry = made.gettarinfo(path, f"{top}/{name}".rstrip("/"))
            entry.mtime, entry.uid, entry.gid, entry.uname, entry.gname = pack.time, 0, 0, "", ""
            entry.mode = 0o755 if path.is_dir() or path.is_symlink() else entry.mode & 0o755
            made.addfile(entry, path.open("rb") if entry.isreg() else None)
    to.write_bytes(gzip.compress(file.getvalue(), 9, mtime=0))
    return to


def pack_zip(pack, folder, to, top=""):
    with zipfile.ZipFile(to, "w", zipfile.ZIP_DEFLATED, compresslevel=9) as made:
        for name, path in entries(folder):
            if path.is_dir():
                continue
            entry = zipfile.ZipInfo(top + name, time.gmtime(pack.time)[:6])
            entry.compress_type, entry.create_system = zipfile.ZIP_DEFLATED, 3
            entry.external_attr = (0o100000 | path.stat().st_mode & 0o777) << 16
            made.writestr(entry, path.read_bytes())
    return to


def pages(folder):
    """The pages, and the exercises and the programs of the lessons, for pupils."""
    copy(folder, TOP / "README.md", *(TOP / it for it in ("examples", "docs")))
    shutil.copytree(TOP / "class", folder / "class", ignore=shutil.ignore_patterns(*FOR_TEACHERS))
    course.write_programs(TOP, folder / "class/lessons")


def texts(folder):
    """What goes with the program on each system."""
    pages(folder)
    copy(folder / "lib", *(TOP / "lib").glob("*.b"))


def manual(folder):
    """The page of the manual and the completions, below `share`."""
    copy(folder / "man/man1", TOP / "share/b.1")
    for shell, name in (("bash-completion/completions", "b.bash"), ("fish/vendor_completions.d", "b.fish")):
        copy(folder / shell, TOP / "share/completions" / name)
    (folder / "bash-completion/completions/b.bash").rename(folder / "bash-completion/completions/b")


def library(part, folder):
    """The library for C of one processor, in `include`, `lib` and `lib/pkgconfig`."""
    copy(folder / "include", part / "b.h")
    for header in ("b_session.h", "b_host.h"):
        copy(folder / "include", part / header)
    copy(folder / "lib", part / "libb.a", part / "libb.so.1", part / "libb.so")
    (folder / "lib/libb.so.1").chmod(0o644)
    text = (part / "b.pc").read_text()
    text = text.replace("includedir=${pcfiledir}\n", "includedir=${pcfiledir}/../../include\n")
    (folder / "lib/pkgconfig").mkdir()
    (folder / "lib/pkgconfig/b.pc").write_text(text.replace("libdir=${pcfiledir}\n", "libdir=${pcfiledir}/..\n"))


def linux(pack):
    """For both processors, with install.sh, which picks."""
    top = f"b-{pack.version}-linux"
    folder, names = pack.begin(top), [f"linux-{it[0]}" for it in (AMD64, ARM64)]
    copy(folder / "bin", SHARE / "b")
    copy(folder / "libexec", SHARE / "words.sh")
    (folder / "libexec/words.sh").rename(folder / "libexec/b-words.sh")
    texts(folder)
    copy(folder, *(SHARE / it for it in ("install.sh", "uninstall.sh", "Dockerfile")))
    manual(folder / "share")
    copy(folder / "share/zsh/site-functions", TOP / "share/completions/_b")
    copy(folder / "share/b", *(TOP / "share" / it for it in ("dap", "kate", "lsp", "vim", "vscode")))
    copy(folder / "share/b/autograder", *(TOP / "share/class").iterdir())
    copy(folder / "share/b/python", *(TOP / "share/python" / it for it in ("b.py", *FOR_AUTHORS)))
    if pack.part("web"):
        copy(folder / "share/b/web", pack.part("web") / "b.html", pack.part("web") / "b.wasm")
    for machine, *_ in (AMD64, ARM64):
        if pack.part(f"linux-{machine}"):
            copy(folder / f"linux-{machine}/libexec", pack.part(f"linux-{machine}") / "b")
        if pack.part(f"library-{machine}"):
            library(pack.part(f"library-{machine}"), folder / f"linux-{machine}/share/b/c")
    tell(pack, folder, names)
    return tar(pack, folder, pack.out / f"{top}.tar.gz", top)


def windows(pack):
    part = pack.part("windows-x86_64")
    if not part:
        return None
    top = f"b-{pack.version}-windows"
    folder = pack.begin(top)
    texts(folder)
    copy(folder, part / "b.exe")
    copy(folder / "share", *(TOP / "share" / it for it in ("kate", "lsp", "vim", "vscode")))
    if pack.part("web"):
        copy(folder, pack.part("web") / "b.html")
    tell(pack, folder, [part.name])
    return pack_zip(pack, folder, pack.out / f"{top}.zip", f"{top}/")


def macos(pack):
    """Objects, which were never tried."""
    part = pack.part("macos")
    if not part:
        return None
    top = f"b-{pack.version}-macos-objects"
    folder = pack.begin(top)
    copy(folder, *(it for it in part.iterdir() if it.name != "PROVED"))
    tell(pack, folder, [part.name])
    return tar(pack, folder, pack.out / f"{top}.tar.gz", top)


CONTROL = """Package: zirpaune
Version: {version}
Architecture: {arch}
Maintainer: {maintainer}
Installed-Size: {size}
Depends: libc6 (>= 2.{glibc})
Suggests: python3
Section: devel
Priority: optional
Description: {summary}
 The command b compiles, checks, lays out, runs and shows programs in the
 language B. Its contracts say what it does for each source, and all of them
 were proved. PROVED, beside the pages in /usr/share/doc, names what was proved.
 .
 The library libb, its header and the module b for Python come with it.
"""
CHANGELOG = """zirpaune ({version}) unstable; urgency=medium

  * docs/CHANGES.md tells what has changed.

 -- {maintainer}  {date}
"""
OVERRIDES = """# One program for each release of Debian, and for systems beside it.
zirpaune: statically-linked-binary
"""


def deb(pack, processor):
    machine, arch, triplet = processor
    part, c = pack.part(f"linux-{machine}"), pack.part(f"library-{machine}")
    if not part or not shutil.which("dpkg-deb"):
        return None
    folder = pack.begin(f"zirpaune-{arch}")
    usr, doc = folder / "usr", folder / "usr/share/doc/zirpaune"
    copy(usr / "bin", SHARE / "b")
    copy(usr / "libexec", part / "b", SHARE / "words.sh")
    (usr / "libexec/words.sh").rename(usr / "libexec/b-words.sh")
    manual(usr / "share")
    copy(usr / "share/zsh/vendor-completions", TOP / "share/completions/_b")
    copy(usr / "share/b/lib", *(TOP / "lib").glob("*.b"))
    copy(usr / "share/b", *(TOP / "share" / it for it in ("dap", "kate", "lsp", "vim", "vscode")))
    copy(usr / "share/b/python", *(TOP / "share/python" / it for it in FOR_AUTHORS))
    pages(doc)
    if c:
        library(c, folder / "c")
        shutil.move(folder / "c/include", usr / "include")
        shutil.move(folder / "c/lib", usr / "lib" / triplet)
        (folder / "c").rmdir()
        (usr / f"lib/{triplet}/pkgconfig/b.pc").write_text(debian_pc(c, triplet))
        copy(usr / "lib/python3/dist-packages", TOP / "share/python/b.py")
    about(pack, folder, doc)
    tell(pack, usr, [part.name], "cd /usr && sha256sum -c share/doc/zirpaune/PROVED")
    (usr / "PROVED").rename(doc / "PROVED")
    control(pack, folder, arch, c)
    return build_deb(pack, folder, pack.out / f"zirpaune_{pack.version}_{arch}.deb")


def debian_pc(part, triplet):
    text = (part / "b.pc").read_text().replace("includedir=${pcfiledir}\n", "includedir=/usr/include\n")
    text = text.replace("libdir=${pcfiledir}\n", f"libdir=/usr/lib/{triplet}\n")
    return text


def zipped(path, text):
    path.parent.mkdir(parents=True, exist_ok=True)
    path.write_bytes(gzip.compress(text, 9, mtime=0))


def about(pack, folder, doc):
    """What Debian wants to stand in a package."""
    page = folder / "usr/share/man/man1/b.1"
    zipped(page.with_name("b.1.gz"), page.read_bytes())
    page.unlink()
    date = time.strftime("%a, %d %b %Y %H:%M:%S +0000", time.gmtime(pack.time))
    text = CHANGELOG.format(version=pack.version, maintainer=MAINTAINER, date=date)
    zipped(doc / "changelog.gz", text.encode())
    (doc / "copyright").write_text(COPYRIGHT)
    overrides = folder / "usr/share/lintian/overrides/zirpaune"
    overrides.parent.mkdir(parents=True)
    overrides.write_text(OVERRIDES)


def glibc_of(part):
    """The least glibc that the shared library of a part needs: the number after 2."""
    needed = re.findall(rb"GLIBC_2\.(\d+)", (part / "libb.so.1").read_bytes()) if part else []
    return max([GLIBC, *map(int, needed)])


def control(pack, folder, arch, c):
    """What Debian wants to know of a package."""
    size = sum(path.stat().st_size for _, path in entries(folder) if path.is_file()) // 1024
    place = folder / "DEBIAN"
    place.mkdir()
    named = {"version": pack.version, "arch": arch, "maintainer": MAINTAINER, "size": size, "summary": SUMMARY,
             "glibc": glibc_of(c)}
    (place / "control").write_text(CONTROL.format(**named))
    if c:
        (place / "triggers").write_text("activate-noawait ldconfig\n")
        (place / "shlibs").write_text("libb 1 zirpaune\n")
    files = [(name, path) for name, path in entries(folder / "usr") if path.is_file() and not path.is_symlink()]
    sums = (f"{hashlib.md5(path.read_bytes()).hexdigest()}  usr/{name}\n" for name, path in files)
    (place / "md5sums").write_text("".join(sums))


def build_deb(pack, folder, to):
    entries(folder)
    words = ["dpkg-deb", "--root-owner-group", "-Zxz", "--build", str(folder), str(to)]
    env = {**os.environ, "SOURCE_DATE_EPOCH": str(pack.time)}
    subprocess.run(words, check=True, stdout=subprocess.DEVNULL, env=env)
    return to


METADATA = """Metadata-Version: 2.1
Name: b
Version: {version}
Summary: {summary}
Requires-Python: >=3.8
Description-Content-Type: text/markdown

`b.go(b"main() {{ printn(6*7, 10); }}").output` is `b'42'`. `compile`, `run`, `go`, `check`, `format` and `migrate` do
what the commands of these names do. `b` and `python -m b` are the whole command line.
"""
WHEEL = """Wheel-Version: 1.0
Generator: tools/pack
Root-Is-Purelib: false
"""


def wheel(pack, processor):
    machine = processor[0]
    part, c = pack.part(f"linux-{machine}"), pack.part(f"library-{machine}")
    if not part or not c:
        return None
    folder = pack.begin(f"wheel-{machine}")
    module, info = folder / "b", folder / f"b-{pack.version}.dist-info"
    copy(module, c / "libb.so.1", SHARE / "__main__.py", TOP / "share/python/bcode.py")
    (module / "libb.so.1").chmod(0o644)
    shutil.copy(TOP / "share/python/b.py", module / "__init__.py")
    (module / "py.typed").touch()
    copy(module / "program/bin", SHARE / "b")
    copy(module / "program/libexec", part / "b", SHARE / "words.sh")
    (module / "program/libexec/words.sh").rename(module / "program/libexec/b-words.sh")
    copy(module / "program/lib", *(TOP / "lib").glob("*.b"))
    tell(pack, module, [part.name])
    info.mkdir()
    (info / "METADATA").write_text(METADATA.format(version=pack.version, summary=SUMMARY))
    tags = [f"manylinux_2_{glibc_of(c)}_{machine}", *([f"manylinux2014_{machine}"] if glibc_of(c) == GLIBC else [])]
    (info / "WHEEL").write_text(WHEEL + "".join(f"Tag: py3-none-{it}\n" for it in tags))
    (info / "entry_points.txt").write_text("[console_scripts]\nb = b.__main__:main\n")
    record(folder, info / "RECORD")
    return pack_zip(pack, folder, pack.out / f"b-{pack.version}-py3-none-{'.'.join(tags)}.whl")


def record(folder, to):
    lines = []
    for name, path in entries(folder):
        if path.is_file():
            code = base64.urlsafe_b64encode(hashlib.sha256(path.read_bytes()).digest()).rstrip(b"=").decode()
            lines.append(f"{name},sha256={code},{path.stat().st_size}\n")
    to.write_text("".join(lines) + f"{to.relative_to(folder).as_posix()},,\n")


PACKAGE = """{{
  "name": "zirpaune",
  "version": "{version}",
  "description": "{summary}",
  "type": "module",
  "main": "./b.mjs",
  "types": "./b.d.mts",
  "exports": {{
    ".": {{ "types": "./b.d.mts", "default": "./b.mjs" }},
    "./b.wasm": "./b.wasm",
    "./sessions.wasm": "./sessions.wasm",
    "./bcode": {{ "types": "./bcode.d.mts", "default": "./bcode.mjs" }},
    "./package.json": "./package.json"
  }},
  "bin": {{ "b": "./b.mjs" }},
  "engines": {{ "node": ">=20" }},
  "license": "UNLICENSED"
}}
"""


def npm(pack):
    part = pack.part("web")
    if not part:
        return None
    folder = pack.begin(f"b-{pack.version}-npm")
    copy(folder, *(it for it in part.iterdir() if it.name not in ("PROVED", "b.html")))
    text = (folder / "b.mjs").read_text()
    (folder / "b.mjs").write_text("#!/usr/bin/env node\n" + text)
    (folder / "b.mjs").chmod(0o755)
    (folder / "package.json").write_text(PACKAGE.format(version=pack.version, summary=SUMMARY))
    tell(pack, folder, [part.name])
    shutil.copytree(folder, pack.out / folder.name)
    return tar(pack, folder, pack.out / f"{folder.name}.tgz", "package")


def page(pack):
    part = pack.part("web")
    if not part:
        return None
    copy(pack.out, part / "b.html", part / "b.wasm")
    return pack.out / "b.html"


CONTENT_TYPES = """<?xml version="1.0" encoding="utf-8"?>
<Types xmlns="http://schemas.openxmlformats.org/package/2006/content-types">
{types}</Types>
"""
TYPES = {".b": "text/plain", ".js": "application/javascript", ".json": "application/json", ".md": "text/markdown",
         ".py": "text/x-python", ".vsixmanifest": "text/xml"}
MANIFEST = """<?xml version="1.0" encoding="utf-8"?>
<PackageManifest Version="2.0.0" xmlns="http://schemas.microsoft.com/developer/vsx-schema/2011"
    xmlns:d="http://schemas.microsoft.com/developer/vsx-schema-design/2011">
  <Metadata>
    <Identity Language="en-US" Id="{name}" Version="{version}" Publisher="{publisher}"/>
    <DisplayName>{displayName}</DisplayName>
    <Description xml:space="preserve">{description}</Description>
    <Categories>{categories}</Categories>
    <Properties>
      <Property Id="Microsoft.VisualStudio.Code.Engine" Value="{engine}"/>
      <Property Id="Microsoft.VisualStudio.Code.ExtensionKind" Value="workspace"/>
    </Properties>
  </Metadata>
  <Installation>
    <InstallationTarget Id="Microsoft.VisualStudio.Code"/>
  </Installation>
  <Dependencies/>
  <Assets>
    <Asset Type="Microsoft.VisualStudio.Code.Manifest" Path="extension/package.json" Addressable="true"/>
  </Assets>
</PackageManifest>
"""


def vsix(pack):
    """The extension for VS Code, with the language server, the debugger and the functions of lib/, so that it needs no
    other file but, for the debugger, the library libb.so."""
    folder = pack.begin(f"b-{pack.version}-vscode")
    extension = folder / "extension"
    copy(extension, *(it for it in (TOP / "share/vscode").iterdir() if it.name != "tasks.json"))
    copy(extension / "server", *(TOP / "share/lsp" / it for it in ("b-lsp", "words.json")))
    copy(extension, TOP / "share/dap")
    copy(extension / "python", TOP / "share/python/b.py")
    copy(extension / "lib", *(TOP / "lib").glob("*.b"))
    told = {**json.loads((extension / "package.json").read_text()), "version": pack.version}
    (extension / "package.json").write_text(json.dumps(told, indent=2) + "\n")
    named = {**told, "categories": ",".join(told["categories"]), "engine": told["engines"]["vscode"]}
    (folder / "extension.vsixmanifest").write_text(MANIFEST.format(**named))
    rows = [f'  <Default Extension="{it}" ContentType="{kind}"/>\n' for it, kind in TYPES.items()]
    rows.append('  <Override PartName="/extension/server/b-lsp" ContentType="text/x-python"/>\n')
    (folder / "[Content_Types].xml").write_text(CONTENT_TYPES.format(types="".join(rows)))
    return pack_zip(pack, folder, pack.out / f"b-{pack.version}.vsix")


def teachers(pack):
    """The exercises with their solutions, to stand in the place of those for pupils."""
    folder = pack.begin(f"b-{pack.version}-teachers")
    copy(folder, TOP / "class")
    course.write_programs(TOP, folder / "class/lessons")
    return pack_zip(pack, folder, pack.out / f"b-{pack.version}-teachers.zip")


# Each archive, what it is for, and how it is made.
ARCHIVES = [
    ("Linux, on both processors", linux),
    ("Windows", windows),
    ("Debian on amd64", lambda pack: deb(pack, AMD64)),
    ("Debian on arm64", lambda pack: deb(pack, ARM64)),
    ("Python on x86_64", lambda pack: wheel(pack, AMD64)),
    ("Python on aarch64", lambda pack: wheel(pack, ARM64)),
    ("Node", npm),
    ("browsers", page),
    ("VS Code", vsix),
    ("teachers, with solutions", teachers),
    ("macOS, as objects", macos),
]
