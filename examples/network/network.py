#!/usr/bin/env python3
"""Runs a network of real processes of the program on one machine, over a router in simulated time.

    network.py PROGRAM [--nodes 25] [--heights 40] [--liars 2] [--report FILE.html] [--audit PROGRAM] ...

Exit status: 0 where every honest node accepted all heights and all agree (and all audits say `same`); 1 where two
honest nodes accepted different blocks at one height; 2 where the words make no network; 3 where heights are missing
at the limit, or a process ended badly; 4 where an audit says otherwise.
"""

import shutil
import signal
import sys
import tempfile
from pathlib import Path
from typing import Sequence

import audit
import options as words
import report
import sweep
import verdict
from options import Options
from simulation import Result, Simulation

AGREED, DISAGREED, UNFINISHED, AUDIT_DIFFERS = 0, 1, 3, 4


def _tell(text: str) -> None:
    print(text, flush=True)


def _judge(result: Result) -> int:
    """Prints the table and the verdict, and returns the exit status."""
    print(verdict.table(result))
    print(f"{result.ended / 1000:g} s of simulated time; {result.router.carried:,} messages, "
          f"{result.router.lost:,} lost, {result.router.spoilt:,} spoilt")
    for note in result.history.notes:
        print(f"{note.time / 1000:8.2f} s   node {note.node + 1} {note.text}")
    parted, told = verdict.disagreements(result.nodes), verdict.complaints(result)
    for text in (*parted, *told):
        print(f"network: {text}")
    if parted:
        print("network: DISAGREEMENT")
        return DISAGREED
    print("network: honest nodes agree: their accepted lists are fronts of one another")
    return UNFINISHED if told else AGREED


def _audited(program: str, result: Result) -> bool:
    """Audits every life of every node, and says what came of it."""
    found = audit.audit(program, [recorder for node in result.nodes for recorder in node.recorders])
    for one in found:
        if not one.holds():
            print(f"network: the audit of {one.name} says {one.said!r} (status {one.status}) and not {one.wanted!r}")
    good = sum(one.holds() for one in found)
    print(f"network: {good} of {len(found)} audits say that the lines are the model's")
    return good == len(found)


def run(options: Options, folder: Path) -> int:
    """Runs one network, and returns the exit status."""
    result = Simulation(options, folder, (lambda _: None) if options.quiet else _tell).run()
    status = _judge(result)
    if options.report:
        options.report.write_text(report.page(result), encoding="utf-8")
    if options.audit and not _audited(options.audit, result) and status == AGREED:
        status = AUDIT_DIFFERS
    print(f"network: {result.took:.1f} s on this machine", file=sys.stderr)
    return status


def main(given: Sequence[str]) -> int:
    """The program."""
    options = words.read(given)
    if options.sweep:
        return sweep.sweep(options)
    if options.streams:
        options.streams.mkdir(parents=True, exist_ok=True)
        for kept in options.streams.glob("node-*.*"):
            kept.unlink()  # of an earlier run; a node would begin with what its store has
        return run(options, options.streams)
    folder = Path(tempfile.mkdtemp(prefix="network-"))
    status = run(options, folder)
    if status == AGREED:
        shutil.rmtree(folder)
    else:
        print(f"network: the nodes' streams are kept in {folder}")
    return status


if __name__ == "__main__":
    signal.signal(signal.SIGTERM, lambda *_: sys.exit(128 + signal.SIGTERM))  # so that no process stays behind
    sys.exit(main(sys.argv[1:]))
