#!/usr/bin/env python3
"""c_library.py: builds the proved library for C, at build/libzonewire.a and build/libzonewire.so.

`rt lib` compiles the crate zonewire_c, and only if it is proved. It proves each crate below first, where that was not done in this folder
since its last change, and keeps what it has proved there, so a build that was stopped goes on. (The gate leaves no libraries that another
command takes, so it does not help here.) A library that was compiled after the last change of the sources is taken as it is. The
toolchain's allocator is linked in, so that the library needs the C library alone, and only the functions of include/zonewire.h can be
seen. The exit status is 1 if the crates are not proved, and 2 if there is no C compiler."""
import os
import re
import shutil
import subprocess
import sys
import tempfile
from pathlib import Path

from crates import ROOT, lower, needs_of

CRATE = "zonewire_c"
BUILD, HEADER = ROOT / "build", ROOT / "include" / "zonewire.h"
COMPILED = ROOT / "crates" / CRATE / "out" / f"lib{CRATE}.a"
DECLARED = re.compile(r"^zonewire_answer (zonewire_\w+)\(", re.M)


def kit():
    """The folder of the toolchain."""
    return Path(subprocess.run(["rt", "doc"], capture_output=True, text=True, check=True).stdout.strip()).parent


def newest_source():
    """When a source, a definition or a proof of the crate or of one below it was last changed."""
    folders = [ROOT / "crates" / it for it in {CRATE, *lower(CRATE, needs_of())}]
    files = [file for folder in folders for part in ("src", "specs", "proofs") for file in folder.glob(f"{part}/**/*.*t")]
    return max(it.stat().st_mtime for it in files)


def run(*words):
    subprocess.run([str(it) for it in words], check=True)


def link():
    """Links the compiled crate and the toolchain's allocator into the two libraries."""
    names = DECLARED.findall(HEADER.read_text())
    BUILD.mkdir(exist_ok=True)
    with tempfile.TemporaryDirectory(dir=BUILD, prefix=".c-") as name:
        room = Path(name)
        (room / "names").write_text("".join(f"{it}\n" for it in names))
        (room / "version").write_text("{ global: " + "".join(f"{it}; " for it in names) + "local: *; };\n")
        allocator = kit() / "c" / "liblibc_c.a"
        run("ld", "-r", "-o", room / "all.o", "--whole-archive", COMPILED, "--no-whole-archive", allocator)
        run("objcopy", f"--keep-global-symbols={room / 'names'}", room / "all.o")
        run("ar", "rcsD", room / "libzonewire.a", room / "all.o")
        words = ["-shared", "-Wl,-soname,libzonewire.so", f"-Wl,--version-script={room / 'version'}", "-Wl,-z,defs", "-Wl,-z,noexecstack"]
        run("cc", *words, "-o", room / "libzonewire.so", room / "all.o")
        for it in ("libzonewire.a", "libzonewire.so"):
            os.replace(room / it, BUILD / it)


def main():
    if not shutil.which("cc"):
        print("make c needs a C compiler and its linker: no command 'cc' is on the PATH.", file=sys.stderr)
        return 2
    if not (COMPILED.is_file() and COMPILED.stat().st_mtime > newest_source()):
        print(f"{len(lower(CRATE, needs_of()))} crates are below the library. Those that are not proved yet in this folder are proved first: an")
        print("hour or more from nothing. What is proved is kept in the crates' folders, so if you stop it, the next run goes on.", flush=True)
        if subprocess.run(["rt", "lib"], cwd=ROOT / "crates" / CRATE).returncode:
            return 1
    link()
    print("The proved library is at build/libzonewire.a and build/libzonewire.so, its header at include/zonewire.h.")
    return 0


if __name__ == "__main__":
    sys.exit(main())
