"""A folder in which the real ./pct runs a given program, as in a checkout where ./pct build has built both programs."""
import pathlib
import shutil

ROOT = pathlib.Path(__file__).resolve().parent.parent
BUILT = pathlib.Path("crates/pct_run/out/pct_run")
INSPECT = pathlib.Path("crates/pct_inspect/out/pct_inspect")


def make(folder, program):
    """Fills the folder with ./pct, what it reads, the examples, the program, and the built pct_inspect."""
    for name in ("pct", "crates.txt"):
        shutil.copy(ROOT / name, folder)
    (folder / "docs").mkdir()
    for name in ("reasons.txt", "forms.txt", "THEOREM.md"):
        shutil.copy(ROOT / "docs" / name, folder / "docs")
    for name in ("examples", "scripts"):
        shutil.copytree(ROOT / name, folder / name)
    for source, built in ((program, BUILT), (ROOT / INSPECT, INSPECT)):
        (folder / built).parent.mkdir(parents=True)
        shutil.copy(source, folder / built)
        # A program is younger than all that ./pct takes it to be made from.
        (folder / built).touch()
