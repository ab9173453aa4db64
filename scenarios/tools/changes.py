"""Whether a change of one line of a page is noticed, and named by file and line."""
from __future__ import annotations

import tempfile
from pathlib import Path
from typing import Iterator

from .folder import run_folder
from .program import Program

PAGES = ("two-children-the-second-wins", "bootstrapping-meets-a-conflict", "audit-misses-a-line")
HEAD = ("#! error", "#! status", "#! output")


def other_digit(text: str) -> str:
    """The text with its last letter or digit changed to another one."""
    at = max(i for i, letter in enumerate(text) if letter.isalnum())
    return text[:at] + ("1" if text[at] != "1" else "2") + text[at + 1:]


def changes(lines: list[str]) -> Iterator[tuple[int, list[str]]]:
    """Each change of one line, with the number of the line at which it is to be named.

    A line of the head or of the program gets another digit, or stands twice, or the program's last one goes;
    in an audit's page the lines are its stream, so that its output is changed alone.
    """
    is_audit = any(line.startswith("#! output") for line in lines)
    said = [at for at, line in enumerate(lines) if line.startswith("> ") and not is_audit]
    for at, line in enumerate(lines):
        if at in said or line.startswith(HEAD):
            yield at + 1, lines[:at] + [other_digit(line.partition(" # ")[0])] + lines[at + 1:]
    for at in said:
        yield at + 2, lines[:at + 1] + [lines[at]] + lines[at + 1:]
    if len(said) > 1:
        yield said[-2] + 1, lines[:said[-1]] + lines[said[-1] + 1:]


def is_noticed(page: Path, at: int, lines: list[str], program: Program) -> bool:
    """Whether a changed copy of the page fails, and the line is named."""
    with tempfile.TemporaryDirectory() as folder:
        copy = Path(folder) / page.name
        copy.write_text("\n".join(lines) + "\n")
        report = run_folder(Path(folder), program, [])
        return report.failed == 1 and any(line.startswith((f"{copy}:{at}:", f"{copy}:{at} ")) for line in report.lines)


def unnoticed_changes(folder: Path, program: Program, left_out: list[str]) -> list[str]:
    """The changes of some pages that aren't noticed."""
    found = []
    for name in PAGES:
        page = folder / f"{name}.txt"
        if name in left_out:
            continue
        for at, lines in changes(page.read_text().splitlines()):
            if not is_noticed(page, at, lines, program):
                found.append(f"{page}:{at}: a change of this line isn't noticed")
    return found
