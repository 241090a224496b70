#!/usr/bin/env python3
"""c_examples.py [--must]: compiles and runs the examples in C and Python over the proved library that `make c` built.

The program examples/c/transfer.c serves the zone of examples/example.zone and fetches it, over the shared library, and with the static one
under the sanitizers of the C compiler for addresses and undefined behaviour, and under valgrind. The zone that is fetched has to be that of
the file, and the octets that are served those of `zonewire send`, if build/zonewire is there, and those that the library gives Python.
The modules of examples/python send the zone of the program's stored run, whose octets are stored, and the zone of the file there and back.

It prints a line for each run, and one that names what is not here and was not run: the library, a command. With --must a library that
is not there is a failure. The exit status is 1 if a run failed."""
import argparse
import re
import shutil
import socket
import subprocess
import sys
import tempfile
import time
from pathlib import Path

from c_library import BUILD, newest_source
from crates import ROOT

ZONE, NAME = ROOT / "examples" / "example.zone", "example.com"
SOURCE = ROOT / "examples" / "c" / "transfer.c"
STORED = ROOT / "crates" / "zone_main"
# How a program is compiled, and what it runs under.
WARNINGS = ["-std=c99", "-Wall", "-Wextra", "-Werror", "-g"]
SHARED = [*WARNINGS, f"-L{BUILD}", "-lzonewire", f"-Wl,-rpath,{BUILD}"]
CHECKED = [*WARNINGS, "-fsanitize=address,undefined", "-fno-sanitize-recover=all", BUILD / "libzonewire.a"]
VALGRIND = ["valgrind", "-q", "--error-exitcode=9", "--leak-check=full", "--errors-for-leak-kinds=all"]
# How many seconds a run may take.
SECONDS = 60


class Failure(Exception):
    """What is wrong with a run."""


def ran(words, **how):
    """What a program writes. Fails unless it ends well and says nothing on standard error."""
    done = subprocess.run([str(it) for it in words], capture_output=True, timeout=SECONDS, **how)
    if done.returncode or done.stderr:
        raise Failure(f"{Path(words[0]).name}: status {done.returncode}: {done.stderr.decode(errors='replace').strip()}")
    return done.stdout


def compiled(room, name, words):
    ran(["cc", f"-I{ROOT / 'include'}", "-o", room / name, SOURCE, *words])
    return room / name


def free_port():
    with socket.socket() as it:
        it.bind(("127.0.0.1", 0))
        return it.getsockname()[1]


def served(program, talk):
    """Starts the program as a server of the zone, has a client talk to its port, and returns what that returns."""
    port = free_port()
    server = subprocess.Popen([str(it) for it in [*program, "serve", ZONE, NAME, port]], stderr=subprocess.PIPE)
    try:
        given = until_listening(server, lambda: talk(port))
        said = server.communicate(timeout=SECONDS)[1].decode(errors="replace").strip()
    finally:
        server.kill()
    if server.returncode or said:
        raise Failure(f"the server: status {server.returncode}: {said}")
    return given


def until_listening(server, talk):
    """Talks as soon as the server listens."""
    last = time.monotonic() + SECONDS
    while True:
        try:
            return talk()
        except (ConnectionRefusedError, Failure):
            if server.poll() is not None or time.monotonic() > last:
                raise
            time.sleep(0.05)


def stream_from(port, query):
    """The octets that a server sends for a query."""
    with socket.create_connection(("127.0.0.1", port), timeout=SECONDS) as it:
        it.sendall(len(query).to_bytes(2, "big") + query)
        parts = b""
        while part := it.recv(1 << 16):
            parts += part
        return parts


def compare(what, given, wanted):
    if given != wanted:
        raise Failure(f"{what} differs: a length of {len(given)}, and of {len(wanted)} in what is wanted")


def there_and_back(program, query, stream):
    """The program serves the zone to a client of ours, whose octets are compared, and to itself."""
    compare("the stream", served(program, lambda port: stream_from(port, query)), stream)
    text = served(program, lambda port: ran([*program, "fetch", NAME, port]))
    compare("the zone", text, records_of_file())


def records_of_file():
    """The lines of the zone's file that are no comments: it is as zonewire prints it."""
    return b"".join(it for it in ZONE.read_bytes().splitlines(True) if not it.startswith(b";"))


def check_stored(zonewire):
    """The stored run of the program: the query that it makes, and its octets in full names and messages of 512 octets."""
    query = zonewire.query(4660, b"a")
    stream = zonewire.send((STORED / "stdin").read_bytes(), query, most=512, spelling=zonewire.PLAIN)
    compare("the stored stream", stream, (STORED / "stdout").read_bytes())


def check_program(stream):
    """The octets of the program itself."""
    wanted = ran([BUILD / "zonewire", "send", "--origin", NAME, "--id", "4660"], input=ZONE.read_bytes())
    compare("the program's stream", stream, wanted)


def check_header(zonewire):
    """The numbers of faults in the header are those that have a text."""
    faults = re.search(r"^enum zonewire_fault \{$(.*?)^\};$", (ROOT / "include" / "zonewire.h").read_text(), re.M | re.S)[1]
    numbers = {int(it) for it in re.findall(r"\bZONEWIRE_\w+ = (\d+)", faults)} - {0}
    compare("the header's faults", numbers, {it for it in range(1000) if zonewire.fault_text(it, 1)})


def check_python():
    words = [sys.executable, ROOT / "examples" / "python" / "there_and_back.py", ZONE, NAME]
    compare("the zone", ran(words).partition(b"\n")[2], records_of_file())


def runs_of(room, zonewire):
    """A title and a function for each run, None for one whose tool is not here."""
    query = zonewire.query(4660, NAME.encode())
    stream = zonewire.send(ZONE.read_bytes(), query, origin=NAME.encode())
    yield "python: the program's stored run", lambda: check_stored(zonewire)
    yield "python: there and back", check_python
    yield "python: the faults of the header", lambda: check_header(zonewire)
    yield "the octets of build/zonewire", (lambda: check_program(stream)) if (BUILD / "zonewire").is_file() else None
    has_cc = shutil.which("cc")
    for title, name, flags, under in (
        ("c", "transfer", SHARED, []),
        ("c, with sanitizers", "checked", CHECKED, []),
        ("c, under valgrind", "transfer", SHARED, VALGRIND),
    ):
        is_here = has_cc and (not under or shutil.which(under[0]))
        run = lambda name=name, flags=flags, under=under: there_and_back([*under, compiled(room, name, flags)], query, stream)
        yield title, run if is_here else None


def run_all():
    """Runs the examples, tells of each, and returns whether none failed."""
    sys.path.insert(0, str(ROOT / "examples" / "python"))
    import zonewire

    is_well = True
    with tempfile.TemporaryDirectory(dir=BUILD, prefix=".c-") as name:
        for title, run in runs_of(Path(name), zonewire):
            try:
                said = run() or "passed" if run else "not run, since that is not here"
            except (Failure, OSError, subprocess.TimeoutExpired, zonewire.Fault) as error:
                said, is_well = f"FAILED: {error}", False
            print(f"examples, {title}: {said}", flush=True)
    return is_well


def main():
    parser = argparse.ArgumentParser(description="Runs the examples in C and Python.")
    parser.add_argument("--must", action="store_true", help="fail if there is no library")
    asked, library = parser.parse_args(), BUILD / "libzonewire.so"
    if not library.is_file():
        print("examples in C and Python: not run, since there is no build/libzonewire.so: `make c` proves and builds it")
        return int(asked.must)
    if library.stat().st_mtime < newest_source():
        print("examples in C and Python: not run, since build/libzonewire.so is older than its sources: `make c` builds it again")
        return int(asked.must)
    return 0 if run_all() else 1


if __name__ == "__main__":
    sys.exit(main())
