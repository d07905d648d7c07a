"""Cases for ./pct: a command of a shell, and what it has to write and to say. Each is run in a temporary folder of its own.

A check that uses this module ends with the line `N passed, M failed`, and with status 1 if M is not 0 or N is 0.
"""
import dataclasses
import os
import pathlib
import shutil
import subprocess
import sys
import tempfile

import checkout
from checkout import BUILT, INSPECT, ROOT

SECONDS = 120
# What ./pct and the commands of the cases call; the PATH of the cases has these, without the kit's rt.
TOOLS = """sh awk cat chmod cmp cp cut date dirname find git grep head ls mkdir mkfifo mktemp mv od printf readlink rm rmdir sed
    sleep tail test timeout touch""".split()
# The form of a command, which is shown after words that are refused.
USAGE = "usage: pct "
SMALLEST = "fn main x\nreturn 0\nend\n"
FAULTY = "fn main x\nemit\nend\n"
# The report of the script SMALLEST: main returns, and the process ends.
REPORT = """report 1
1.1 exit 0
1.1 process_end 0
verdict complete
schedule 1 10000 4 64
1 1 1 go
1 1 1 go
end 2
"""
WORKER = "fn w x\nend\nfn main x\npthread_create - - w 1\nend\n"
HEADER = "%%\nschedule 1 100 4 64\n"
BEGUN = "schedule 1 10000 4 64\n1 1 1 go\n"
# The views of SMALLEST after BEGUN.
TRACE = "1\t1.1\tmain:2\treturn 0\tgo\texit 0\nverdict open\n"
CHOICES = "verdict open\n1.1\t-\t-\texiting\tdisable deferred, no request\t-\n1 1 1 go\n"
LANES = "step\t1.1\n1\texit 0\nverdict open\n"


@dataclasses.dataclass
class Case:
    """A command. `says` is what standard error has, in this order, and no other line that begins with `pct: `."""

    name: str
    command: str
    status: int
    stdout: str
    says: list = dataclasses.field(default_factory=list)
    files: dict = dataclasses.field(default_factory=dict)


def tools(folder):
    """A folder of links to the commands in TOOLS, so that the PATH has no rt."""
    folder.mkdir()
    for name in TOOLS:
        (folder / name).symlink_to(shutil.which(name))
    return str(folder)


def wrong_words(case, stderr):
    """What is wrong with standard error."""
    wrong, at = [], 0
    for words in case.says:
        found = stderr.find(words, at)
        if found < 0:
            wrong.append(f"standard error does not say {words!r}")
        at = max(at, found)
    for line in stderr.splitlines():
        if line.startswith("pct: ") and not any(words.strip() in line for words in case.says):
            wrong.append(f"standard error says {line!r}")
    if stderr and not case.says:
        wrong.append("standard error is not empty")
    return wrong


def wrongs(case, folder, path, program):
    """What is wrong at a case, which is run in a folder."""
    for name, text in case.files.items():
        (folder / name).write_bytes(text.encode())
    (folder / "tmp").mkdir()
    ran = subprocess.run(
        ["sh", "-c", case.command],
        cwd=folder,
        env={"PATH": path, "TMPDIR": str(folder / "tmp"), "PROGRAM": str(program), "INSPECT": str(ROOT / INSPECT), "TOP": str(folder)},
        stdin=subprocess.DEVNULL,
        capture_output=True,
        timeout=SECONDS,
    )
    stdout, stderr = ran.stdout.decode(errors="replace"), ran.stderr.decode(errors="replace")
    wrong = []
    if ran.returncode != case.status:
        wrong.append(f"the status is {ran.returncode} and not {case.status}")
    if stdout != case.stdout:
        wrong.append(f"standard output is {stdout[:500]!r} and not {case.stdout!r}")
    wrong += wrong_words(case, stderr)
    if os.listdir(folder / "tmp"):
        wrong.append("a temporary folder is left")
    return [*wrong, f"standard error is {stderr!r}"] if wrong else []


def named_program():
    """The program that the check is given, or the built one."""
    words = [word for word in sys.argv[1:] if not word.startswith("--")]
    program = pathlib.Path(words[0] if words else ROOT / BUILT).resolve()
    if not program.is_file():
        sys.exit(f"there is no program {program}; ./pct build builds it")
    return program


def run_all(program, cases, prepare=None):
    """Runs each case. `prepare` makes a folder ready for it, and returns folders to begin the PATH with."""
    passed = failed = 0
    with tempfile.TemporaryDirectory() as name:
        top = pathlib.Path(name)
        path = tools(top / "tools")
        for number, case in enumerate(cases):
            folder = top / str(number)
            folder.mkdir()
            checkout.make(folder, program)
            first = prepare(folder, case) if prepare else []
            wrong = wrongs(case, folder, ":".join([*first, path]), program)
            shutil.rmtree(folder)
            passed, failed = passed + (not wrong), failed + bool(wrong)
            if wrong:
                print(f"{case.name}: {case.command}", *wrong, sep="\n    ")
    print(f"{passed} passed, {failed} failed")
    sys.exit(1 if failed or not passed else 0)
