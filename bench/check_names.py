#!/usr/bin/env python3
"""Checks that the files and headings which the pages name are there.

    bench/check_names.py

The pages are README.md, docs/*.md and conformance/README.md. What is checked:

- Links. The file of each link is there, and if the link has an anchor, the file has a heading of this anchor.
- Paths. A word in backticks that begins with a folder of this repository, such as `docs/`, is a file or a folder. NAME in it
  is any name. What ./pct build makes, in a folder `out`, is passed over.
- Files. A name in backticks with an ending of the files of this repository, such as `Report.antt`, is that of a file in it.
  After a command of the page that writes such a file, the name is passed over on this page.

Blocks of code are passed over. The last line is `N passed, M failed`. The status is 1 if M is not 0 or N is 0.
"""
import functools
import os
import re
import sys

from checkout import ROOT

FOLDERS = ("bench/", "conformance/", "crates/", "docs/", "examples/", ".ci/")
ENDINGS = (".antt", ".rt", ".py", ".md", ".pct", ".replay", ".prefix", ".edit", ".c", ".txt")
LINK = re.compile(r"\]\(([^)\s]+)\)")


def pages():
    return [ROOT / "README.md", *sorted((ROOT / "docs").glob("*.md")), ROOT / "conformance/README.md"]


@functools.cache
def files():
    """The names of all files of the repository, but for what is built and for what git keeps."""
    found = set()
    for _, folders, names in os.walk(ROOT):
        folders[:] = [folder for folder in folders if folder not in ("out", ".git", "__pycache__")]
        found |= set(names)
    return found


@functools.cache
def anchors(page):
    """The anchors of the headings of a page. The second heading of the same words has the ending -1."""
    found = []
    for _, line in text_lines(page):
        if line.startswith("#"):
            words = re.sub(r"\[([^]]*)\]\([^)]*\)", r"\1", line.lstrip("#").strip()).lower()
            anchor = re.sub(r"[^a-z0-9_ -]", "", words).replace(" ", "-")
            times = found.count(anchor)
            found.append(f"{anchor}-{times}" if times else anchor)
    return found


@functools.cache
def text_lines(page):
    """The lines of a page outside blocks of code, with their numbers."""
    found, is_code = [], False
    for number, line in enumerate(page.read_text().splitlines(), 1):
        if line.startswith("```"):
            is_code = not is_code
        elif not is_code:
            found.append((number, line))
    return found


def link_fault(page, link):
    """What is wrong with a link of a page, or nothing."""
    name, _, anchor = link.partition("#")
    target = (page.parent / name).resolve() if name else page
    if not target.exists():
        return f"the link {link} leads to no file"
    if anchor and anchor not in anchors(target):
        return f"the link {link} leads to no heading"
    return None


def name_fault(code, written):
    """What is wrong with the name of a file, or nothing."""
    if code.startswith(FOLDERS):
        return None if any(ROOT.glob(code.replace("NAME", "*").rstrip("/"))) else f"there is no {code}"
    return None if code in files() or code in written else f"there is no file {code}"


def is_name(code):
    """The words in backticks are the name of a file or folder of this repository."""
    if not re.fullmatch(r"[A-Za-z0-9_./*-]+", code) or "/out/" in code or code.startswith("*"):
        return False
    return code.startswith(FOLDERS) or "/" not in code and code.endswith(ENDINGS) and code not in ENDINGS


def results(page):
    """For each link and name of a page: its line, and what is wrong with it, or nothing."""
    written = set(re.findall(r"> (\S+)", page.read_text()))
    for number, line in text_lines(page):
        for link in LINK.findall(re.sub(r"`[^`]*`", "", line)):
            if "://" not in link:
                yield number, link_fault(page, link)
        for code in re.findall(r"`([^`]+)`", line):
            if is_name(code):
                yield number, name_fault(code, written)


def main():
    passed = failed = 0
    for page in pages():
        for number, fault in results(page):
            if fault is None:
                passed += 1
                continue
            failed += 1
            print(f"{page.relative_to(ROOT)}:{number}: {fault}")
    print(f"{passed} passed, {failed} failed")
    sys.exit(1 if failed or not passed else 0)


main()
