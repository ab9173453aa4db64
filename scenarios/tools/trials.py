"""All runs of one page: as it stands, cut, a byte at a time, with faults, and its audit."""
from __future__ import annotations

import random
import re
from pathlib import Path
from typing import Callable, Iterator, Optional

from .events import LINE
from .head import Trial
from .page import Line, Page
from .program import Outcome, Program
from .verdicts import Wanted, difference, front_difference

ROOT = Path(__file__).resolve().parent.parent.parent
SHORT = 65536  # streams up to here are also parted, cut and audited
CUT = 40  # streams with so many frames at most are also cut behind each, and within each
FRAME_NUMBER = re.compile(rb"(snowman: bad input at frame )([0-9]+)(: [a-z-]+\n)")

Told = Iterator[str]


def wanted_of(page: Page) -> Wanted:
    """What the page says of its run."""
    head = page.head
    error_spot = head.error.spot if head.error else head.status.spot
    end = page.last or head.words.spot
    return Wanted(page.lines, page.error, int(head.status.text), error_spot, head.status.spot, end)


def said(how: str, told: Optional[str]) -> Told:
    """A difference, with how the program was run."""
    if told:
        yield f"{told} [{how}]"


def whole_runs(page: Page, program: Program) -> Told:
    """The stream whole, with a report that nobody takes, in pieces and a byte at a time."""
    wanted, stream = wanted_of(page), page.stream
    found = program.whole(page.words, stream)
    told = list(said("whole", difference(wanted, found)))
    yield from told
    if not told and wanted.error:
        unheard = program.unheard(page.words, stream)
        heard = Outcome(unheard.out, wanted.error, unheard.status)
        yield from said("nobody takes standard error", difference(wanted, heard))
    if not told and stream and len(stream) <= SHORT:
        yield from parted_runs(page, program)


def parted_runs(page: Page, program: Program) -> Told:
    """The stream in some pieces, and a byte at a time."""
    wanted, stream = wanted_of(page), page.stream
    chance = random.Random(page.name)
    ends = sorted(chance.sample(range(1, len(stream)), min(len(stream) - 1, 25))) + [len(stream)]
    pieces = [stream[a:b] for a, b in zip([0] + ends, ends)]
    yield from said("in pieces", difference(wanted, program.pieced(page.words, pieces)))
    single = (stream[i:i + 1] for i in range(len(stream)))
    yield from said("a byte at a time", difference(wanted, program.pieced(page.words, single)))


def frames_before_stop(page: Page) -> int:
    """How many frames lie before the one that stops the run; all, where none does."""
    bad = FRAME_NUMBER.fullmatch(page.error)
    if bad:
        return min(int(bad[2]) - 1, len(page.events))
    return len(page.events) - (int(page.head.status.text) != 0)


def fronts(page: Page, program: Program) -> Told:
    """The stream up to behind each frame, and up to within each: the lines under these frames come."""
    if page.is_audit or len(page.events) > CUT or len(page.stream) > SHORT:
        return
    whole = wanted_of(page)
    front, lines = b"", list(page.first)
    for count, event in enumerate(page.events[:frames_before_stop(page)], 1):
        cut = front + event.frame[:-1]
        error = b"snowman: bad input at frame %d: cut\n" % count
        wanted = Wanted(list(lines), error, 3, whole.error_spot, event.spot, event.spot)
        yield from said(f"cut within frame {count}", difference(wanted, program.whole(page.words, cut)))
        front, lines = front + event.frame, lines + event.lines
        wanted = Wanted(list(lines), b"", 0, event.spot, event.spot, event.spot)
        yield from said(f"ends behind frame {count}", difference(wanted, program.whole(page.words, front)))
        wanted = Wanted(list(lines), b"snowman: source fault\n", 4, event.spot, event.spot, event.spot)
        yield from said(f"reading fails behind frame {count}", difference(wanted, program.broken(page.words, front)))


def audited(page: Page, program: Program) -> Told:
    """The frames with the lines that belong to each: the audit finds them all."""
    has_lines = any(event.frame[4:5] == bytes([LINE]) for event in page.events)
    if page.words[:1] != ["run"] or not page.events or has_lines or len(page.stream) > SHORT:
        return
    whole, words = wanted_of(page), ["audit"] + page.words[1:]
    lines = [Line(whole.end, b"same %d" % len(whole.lines))] if whole.status == 0 else []
    bad = FRAME_NUMBER.fullmatch(whole.error)
    earlier = len(page.first) + sum(len(event.lines) for event in page.events[:frames_before_stop(page)])
    error = b"%s%d%s" % (bad[1], int(bad[2]) + earlier, bad[3]) if bad else whole.error
    wanted = Wanted(lines, error, whole.status, whole.error_spot, whole.status_spot, whole.end)
    stream = b"".join(page.with_lines()) + page.rest
    yield from said("audit of the run with its lines", difference(wanted, program.whole(words, stream)))


def listed(page: Page, program: Program) -> Told:
    """The trials that the head lists."""
    for trial in page.head.trials:
        for place in trial.places:
            yield from TRIALS[trial.kind](page, program, trial, place)


def wanted_by(page: Page, trial: Trial) -> Wanted:
    """What a trial is to give."""
    return Wanted(page.lines[:trial.lines], trial.error, trial.status, trial.spot, trial.spot, trial.spot)


def input_ends(page: Page, program: Program, trial: Trial, place: int) -> Told:
    """The input ends behind so many bytes."""
    found = program.whole(page.words, page.stream[:place])
    yield from said(f"the input ends behind {place} bytes", difference(wanted_by(page, trial), found))


def reading_fails(page: Page, program: Program, trial: Trial, place: int) -> Told:
    """A read fails behind so many bytes; where there are none, a folder fails too."""
    wanted = wanted_by(page, trial)
    found = program.broken(page.words, page.stream[:place])
    yield from said(f"reading fails behind {place} bytes", difference(wanted, found))
    if place == 0:
        yield from said("a folder as input", difference(wanted, program.without_input(page.words)))


def writing_fails(page: Page, program: Program, trial: Trial, place: int) -> Told:
    """The output takes so many bytes; where it takes none, others that take none fail too."""
    wanted = wanted_by(page, trial)
    lined = Wanted(page.lines, wanted.error, wanted.status, trial.spot, trial.spot, trial.spot)
    found = program.limited(page.words, page.stream, place)
    yield from said(f"the output takes {place} bytes", front_difference(lined, found))
    if found.out.count(b"\n") != trial.lines or len(found.out) > place:
        yield f"{trial.spot}: {len(found.out)} bytes with {found.out.count(10)} whole lines were written [the output takes {place} bytes]"
    if place == 0:
        for how, run in (("a full device", program.into_full), ("a pipe that nobody reads", program.into_nobody),
                         ("a closed output", program.into_nothing)):
            yield from said(how, difference(wanted, run(page.words, page.stream)))


TRIALS: dict[str, Callable[[Page, Program, Trial, int], Told]] = {
    "input-ends": input_ends, "reading-fails": reading_fails, "writing-fails": writing_fails}


def same_file(page: Page) -> Told:
    """Where the head names a file of the repository, it has the bytes of the page's stream."""
    said_ = page.head.stream
    if said_ and (ROOT / said_.text).read_bytes() != page.stream:
        yield f"{said_.spot}: the page makes other bytes than {said_.text}"


def runs_of(page: Page, program: Program, has_audit: bool) -> Told:
    """All differences of a page; where its own run differs nothing else is tried."""
    told = list(same_file(page)) + list(whole_runs(page, program))
    yield from told
    if not told:
        yield from fronts(page, program)
        yield from listed(page, program)
        if has_audit:
            yield from audited(page, program)
