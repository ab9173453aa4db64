"""The audit of what the nodes' processes wrote."""

import os
import subprocess
from concurrent.futures import ThreadPoolExecutor
from dataclasses import dataclass
from typing import Sequence

from engine import Recorder


@dataclass
class Audited:
    """What the auditing program said of one life of one node."""

    name: str
    wanted: str
    said: str
    status: int

    def holds(self) -> bool:
        """Whether it found the same lines."""
        return self.status == 0 and self.said == self.wanted


def _audit(program: str, recorder: Recorder) -> Audited:
    with open(recorder.audited_path, "rb") as stream:
        done = subprocess.run([program, "audit", "--chain", "tally"], stdin=stream, capture_output=True, check=False)
    said = (done.stdout + done.stderr).decode("ascii", "replace").strip()
    return Audited(recorder.audited_path.stem, f"same {recorder.count}", said, done.returncode)


def audit(program: str, recorders: Sequence[Recorder]) -> list[Audited]:
    """Lets the program compare each life's lines with those of the model: some at a time, one for each processor."""
    with ThreadPoolExecutor(os.cpu_count() or 1) as pool:
        return list(pool.map(lambda recorder: _audit(program, recorder), recorders))
