"""What all nodes share."""

from dataclasses import dataclass
from pathlib import Path
from typing import Optional

import frames
from history import History
from options import Options
from router import Router
from schedule import Schedule


@dataclass
class World:
    """The network around a node."""

    options: Options
    schedule: Schedule
    router: Router
    history: History
    names: list[bytes]
    rosters: tuple[frames.Roster, frames.Roster]
    change_height: Optional[int]
    folder: Path

    def roster_at(self, height: int) -> frames.Roster:
        """The validators in force above a block of this height."""
        return self.rosters[self.change_height is not None and height >= self.change_height]
