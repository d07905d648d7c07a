#!/usr/bin/env python3
"""Compares what the C libraries of this machine do with docs/LIBRARIES.md.

    bench/libraries.py [--cc COMMAND] [--run COMMAND] [--seconds N]

Each program of examples/c is built in a temporary folder, and is run several times at once. For each program a row is
printed: its section of docs/LIBRARIES.md and its name, what this host does, and what the program did with each library.
The header of a program has the section (Row), the script that is its counterpart (Script) and what this host does (Host);
the table of the section has to have the same words.

- Without --cc the programs are built with gcc, and with musl-gcc where it is in the PATH. COMMAND is split into words as
  a shell does.
- With --run this command is put before each program, split in the same way.
- The lines that a program writes to standard output are joined by `; `. Standard error is dropped.
- A program that takes longer than four seconds, or than N, is ended, and reported as `hangs`. One that a signal ended is
  reported as `killed by SIGNAL`, and one with another status than 0 as `status N`.
- Runs that differ are all printed, with their numbers.

What a program did is compared with the cell of the page in the row of this library: the words in backticks there, and
`hangs` or `killed by SIGNAL` at its beginning or after `then`. `as glibc` at its beginning means the cell of glibc. All
runs have to give these words, or one of them if the cell says `in N of M runs` and N is less than M. A difference is a
failure where the library has the version that the page names, on x86-64, without --run. Else it is printed, and is no
failure.

The last line is `N rows shown, M programs failed to build, K cells differ`, where K counts failures. The status is 1 if a
program failed to build, a row has no result, or the page differs from a header or from what was measured.
"""
import argparse
import collections
import concurrent.futures
import dataclasses
import os
import pathlib
import platform
import re
import shlex
import shutil
import signal
import subprocess
import sys
import tempfile

ROOT = pathlib.Path(__file__).resolve().parent.parent
PAGE = ROOT / "docs/LIBRARIES.md"
COMPILERS = [["gcc"], ["musl-gcc"]]
OPTIONS = ["-std=c11", "-O1", "-pthread"]
RUNS = 3
SECONDS = 4
# The library, and the cell, of a row of a table; and what a cell has of a program.
ROW = re.compile(r"^\| ((?:glibc|musl) [0-9.]+) \| (.*) \|$", re.MULTILINE)
HOST_ROW = re.compile(r"^\| This host \| (.*) \|$", re.MULTILINE)
QUOTED = re.compile(r"`([^`]+)`")
ENDED = re.compile(r"hangs\b|killed by SIG[A-Z0-9]+")
THEN = re.compile(rf"(?<=`), then ({ENDED.pattern})")
RARE = re.compile(r"in ([0-9,]+) of ([0-9,]+) runs")
FAILED = "failed to build"
SIGNALS = {one.value: one.name for one in signal.Signals}
FIELD = re.compile(r"^ \* (Row|Script|Host): +(.*)$", re.MULTILINE)
VERSION = """#include <stdio.h>
#ifdef __GLIBC__
#include <gnu/libc-version.h>
#else
#define gnu_get_libc_version() ""
#endif
#ifdef __x86_64__
#define MACHINE "x86-64"
#else
#define MACHINE "another machine"
#endif
int main(void) { printf("%s/%s", gnu_get_libc_version(), MACHINE); }
"""


@dataclasses.dataclass
class Library:
    """A C library at hand: its name and version, the machine, and how programs are built and run with it."""
    compiler: list
    prefix: list
    seconds: float
    name: str = ""
    machine: str = ""

    def build(self, source, program):
        """Builds a program, and returns whether that succeeded. What the compiler says goes to standard error."""
        return subprocess.run([*self.compiler, *OPTIONS, "-o", program, source]).returncode == 0

    def identify(self, folder):
        source, program = folder / "version.c", folder / "version"
        source.write_text(VERSION)
        if not self.build(source, program):
            sys.exit(f"{shlex.join(self.compiler)} builds no program")
        ran = subprocess.run([*self.prefix, program], stdout=subprocess.PIPE, text=True)
        version, _, self.machine = ran.stdout.rpartition("/")
        self.name = f"glibc {version}" if version else musl_version() or f"the library of {shlex.join(self.compiler)}"


def musl_version():
    loader = f"/lib/ld-musl-{platform.machine()}.so.1"
    if os.path.exists(loader):
        found = re.search("Version (.*)", subprocess.run([loader], stderr=subprocess.PIPE, text=True).stderr)
        return found and f"musl {found[1]}"


def run(library, program):
    """Runs a program once, and returns what it did, in words."""
    with subprocess.Popen(
        [*library.prefix, program], stdin=subprocess.DEVNULL, stdout=subprocess.PIPE, stderr=subprocess.DEVNULL,
        start_new_session=True
    ) as process:
        try:
            output = process.communicate(timeout=library.seconds)[0]
            ended = process.returncode
        except subprocess.TimeoutExpired:
            os.killpg(process.pid, signal.SIGKILL)
            output, ended = process.communicate()[0], None
    words = [line.strip() for line in output.decode(errors="replace").splitlines()]
    if ended is None:
        words.append("hangs")
    elif ended < 0:
        words.append(f"killed by {SIGNALS.get(-ended, f'signal {-ended}')}")
    elif ended > 0:
        words.append(f"status {ended}")
    return "; ".join(words)


def results_of(library, source, folder):
    """What a program did in its runs, in words, and how often; nothing if it cannot be built."""
    program = folder / "program"
    if not library.build(source, program):
        return None
    with concurrent.futures.ThreadPoolExecutor(RUNS) as pool:
        return collections.Counter(pool.map(lambda _: run(library, program), range(RUNS)))


def in_words(counts):
    if counts is None:
        return FAILED
    if len(counts) == 1:
        return next(iter(counts)) or "wrote nothing"
    return " | ".join(f"{words or 'nothing'} ({count} of {RUNS})" for words, count in counts.most_common())


# ---- the page


def sections(page):
    """The sections of a page, by their headings without backticks."""
    parts = re.split(r"^### (.*)$", page, flags=re.MULTILINE)
    return {heading.replace("`", ""): text for heading, text in zip(parts[1::2], parts[2::2])}


def programs_of(text):
    """The programs and the fields of their headers, in the order in which the text of the page names them."""
    sources = sorted((ROOT / "examples/c").glob("*.c"), key=lambda source: text.find(f"examples/c/{source.name}`, "))
    return [(source, dict(FIELD.findall(source.read_text()))) for source in sources]


def disagreement(source, fields, page):
    """What the page lacks of the header of a program; nothing if they agree."""
    section = page.get(fields["Row"])
    if section is None:
        return f"there is no section {fields['Row']}"
    host = HOST_ROW.search(section)
    if not host or not host[1].startswith(fields["Host"]):
        return f"the row of this host in {fields['Row']} does not begin with: {fields['Host']}"
    for words in (f"`examples/c/{source.name}`", f"`{fields['Script']}`"):
        if words not in section:
            return f"the section {fields['Row']} lacks: {words}"
    return None if (ROOT / fields["Script"]).is_file() else f"there is no {fields['Script']}"


def cell_of(section, library):
    """The cell of a library in the table of a section, and the version that the page names."""
    cells = {name.split()[0]: (name, cell) for name, cell in ROW.findall(section)}
    name, cell = cells.get(library.name.split()[0], (None, ""))
    return name, cells.get("glibc", (None, ""))[1] if cell.startswith("as glibc") else cell


def difference(cell, counts):
    """How the runs of a program differ from a cell; nothing if they do not."""
    begins = ENDED.match(cell)
    texts = [*([begins[0]] if begins else []), *QUOTED.findall(cell)]
    if len(texts) != 1:
        return f"the cell has not one text to compare: {cell}"
    wanted = "; ".join([*texts, *THEN.findall(cell)])
    found = RARE.search(cell)
    is_rare = found and int(found[1].replace(",", "")) < int(found[2].replace(",", ""))
    if counts.keys() == {wanted} or is_rare and wanted in counts:
        return None
    return f"the page has: {wanted}"


def compare(section, library, counts):
    """What is printed of a cell, and whether that is a failure; nothing if the cell is what was measured."""
    name, cell = cell_of(section, library)
    if name is None:
        is_known = library.name.split()[0] in ("glibc", "musl")
        return ("the page has no row of this library", is_known)
    differs = difference(cell, counts)
    if differs is None:
        return None
    is_same = (library.name, library.machine, library.prefix) == (name, "x86-64", [])
    return (differs if is_same else f"{differs} ({name}, x86-64)", is_same)


# ---- the rows


def show(source, fields, results, differences, lack):
    """Prints the row of a program."""
    width = max(map(len, ["this host", *results]))
    print(f"\n{fields['Row']}: {source.stem}\n  {'this host':{width}}  {fields['Host']}")
    for name, counts in results.items():
        print(f"  {name:{width}}  {in_words(counts)}")
        if differences.get(name):
            print(f"  {'':{width}}  {'DIFFERS' if differences[name][1] else 'differs'}: {differences[name][0]}")
    if lack:
        print(f"  {PAGE.relative_to(ROOT)}: {lack}")
    sys.stdout.flush()


def libraries_of(options, folder):
    """The libraries of the compilers that are named, or at hand."""
    for compiler in [options.cc] if options.cc else COMPILERS:
        if shutil.which(compiler[0]):
            library = Library(compiler, options.run, options.seconds)
            library.identify(folder)
            yield library
        else:
            print(f"{compiler[0]} is not in the PATH: skipped")


def options_of():
    layout = argparse.RawDescriptionHelpFormatter
    parser = argparse.ArgumentParser(description=__doc__, formatter_class=layout, allow_abbrev=False)
    parser.add_argument("--cc", type=shlex.split)
    parser.add_argument("--run", type=shlex.split, default=[])
    parser.add_argument("--seconds", type=float, default=SECONDS)
    return parser.parse_args()


def main():
    options = options_of()
    text = PAGE.read_text()
    page = sections(text)
    shown = failed = differing = lacking = 0
    with tempfile.TemporaryDirectory() as name:
        folder = pathlib.Path(name)
        libraries = list(libraries_of(options, folder))
        names = [f"{library.name} on {library.machine}" for library in libraries]
        print(f"{', '.join(names) or 'no library'}, {RUNS} runs of each program")
        for source, fields in programs_of(text):
            results = {library.name: results_of(library, source, folder) for library in libraries}
            section = page.get(fields["Row"], "")
            differences = {
                library.name: compare(section, library, results[library.name])
                for library in libraries if results[library.name] is not None
            }
            lack = disagreement(source, fields, page)
            show(source, fields, results, differences, lack)
            failed += None in results.values()
            shown += bool(results) and all(counts and all(counts) for counts in results.values())
            differing += sum(bool(found and found[1]) for found in differences.values())
            lacking += lack is not None
    print(f"\n{shown} rows shown, {failed} programs failed to build, {differing} cells differ")
    sys.exit(1 if failed or differing or lacking or shown < len(programs_of(text)) else 0)


main()
