"""Many runs over loss and liars, and one table of what came of them."""

import datetime
import platform
import tempfile
from concurrent.futures import ProcessPoolExecutor
from dataclasses import dataclass, replace
from pathlib import Path
from typing import Optional

import verdict
from history import percentile
from options import Options
from simulation import Simulation

SHARES = (0.0, 1 / 12, 1 / 6, 1 / 4, 1 / 3)
SEEDS = 3


@dataclass
class Sample:
    """What one run came to."""

    finished: bool
    parted: int
    complaints: int
    height: int
    waited: list[int]
    polls: int


def _run(options: Options) -> Sample:
    with tempfile.TemporaryDirectory(prefix="network-") as folder:
        result = Simulation(options, Path(folder), lambda _: None).run()
    told = verdict.complaints(result)
    return Sample(result.finished, len(verdict.disagreements(result.nodes)), len(told) - (not result.finished),
                  min(node.store.last.height for node in result.nodes), result.history.waiting_times(),
                  sum(node.tally.polls for node in result.nodes) // len(result.nodes))


def _seconds(value: Optional[int]) -> str:
    return "-" if value is None else f"{value / 1000:.2f}"


def _row(loss: float, share: float, samples: list[Sample]) -> str:
    waited = sorted(time for sample in samples for time in sample.waited)
    heights = "/".join(str(sample.height) for sample in samples)
    polls = sum(sample.polls for sample in samples) // len(samples)
    words = (f"{loss:.0%}", f"{share:.0%}", f"{sum(sample.finished for sample in samples)} of {len(samples)}", heights,
             _seconds(percentile(waited, 50)), _seconds(percentile(waited, 99)),
             str(polls), f"{sum(sample.parted > 0 for sample in samples)} of {len(samples)}")
    return "| " + " | ".join(words) + " |"


def cases(options: Options) -> list[tuple[float, float, list[Options]]]:
    """Each loss with each number of liars, and its runs: nobody joins late or is killed, the validators stay."""
    calm = replace(options, late=0, kill=0, change=False, streams=None, report=None, audit=None)
    return [(loss, calm_liars.liars_share(), [replace(calm_liars, loss=loss, seed=options.seed + i)
                                              for i in range(SEEDS)])
            for loss in options.sweep
            for calm_liars in (replace(calm, liars=int(options.nodes * share)) for share in SHARES)]


def sweep(options: Options) -> int:
    """Prints the table, row by row, and returns 1 where two honest nodes disagreed or a process ended badly."""
    print(f"{datetime.date.today()}, {platform.machine()}, {options.nodes} nodes, {options.heights} heights, "
          f"parameters {', '.join(map(str, options.params))}, liars {options.lie}, {options.tries} tries, at most "
          f"{options.limit / 1000:g} s of simulated time, seeds {options.seed} to {options.seed + SEEDS - 1}\n")
    print("| loss | liars' weight | runs that accepted all | heights accepted by every node | median s | 99 of 100 s "
          "| polls a node | runs that disagreed |")
    print("|---" * 8 + "|", flush=True)
    bad = 0
    pool = ProcessPoolExecutor()
    try:
        rows = [(loss, share, [pool.submit(_run, one) for one in runs]) for loss, share, runs in cases(options)]
        for loss, share, futures in rows:
            samples = [future.result() for future in futures]
            bad += sum(sample.parted + sample.complaints for sample in samples)
            print(_row(loss, share, samples), flush=True)
    finally:
        pool.shutdown(cancel_futures=True)
    return int(bad > 0)
