"""All pages of a folder on a built program."""
from __future__ import annotations

from dataclasses import dataclass, field
from pathlib import Path

from .page import Page, read_page
from .program import Program
from .trials import runs_of
from .values import BadText


@dataclass
class Report:
    """What came of the pages."""

    passed: int = 0
    failed: int = 0
    left_out: list[str] = field(default_factory=list)
    lines: list[str] = field(default_factory=list)


def knows(program: Program, words: list[str]) -> bool:
    """Whether the program has this task or chain: with an empty input it then misses the Start."""
    return program.whole(words, b"").status == 3


def is_beyond(page: Page, has_audit: bool, has_ledger: bool) -> bool:
    """Whether a page is for a task or a chain that the program doesn't have."""
    return ("audit" in page.words and not has_audit) or ("ledger" in page.words and not has_ledger)


def run_folder(folder: Path, program: Program, only: list[str]) -> Report:
    """Runs each page, or those of these names."""
    has_audit = knows(program, ["audit"])
    has_ledger = knows(program, ["decide", "--chain", "ledger"])
    report = Report()
    for path in sorted(folder.glob("*.txt")):
        if only and path.stem not in only:
            continue
        try:
            page = read_page(path)
        except BadText as reason:
            report.lines.append(str(reason))
            report.failed += 1
            continue
        if is_beyond(page, has_audit, has_ledger):
            report.left_out.append(page.name)
            continue
        told = list(runs_of(page, program, has_audit))
        report.lines += told
        report.failed += bool(told)
        report.passed += not told
    return report
