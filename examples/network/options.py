"""The words of the command line, and who plays which part."""

import argparse
import random
import shutil
from dataclasses import dataclass
from pathlib import Path
from typing import Optional, Sequence

import router
from frames import Params

SWEPT = [0.0, 0.05, 0.1, 0.2, 0.3]


@dataclass(frozen=True)
class Options:
    """How a network is made. Times are simulated milliseconds."""

    program: str
    nodes: int
    heights: int
    weights: str
    liars: int
    lie: str
    late: int
    kill: int
    down: int
    change: bool
    loss: float
    delay: tuple[int, int]
    conflicts: float
    seed: int
    params: Params
    interval: int
    timeout: int
    tries: int
    gossip: int
    step: int
    limit: int
    faults: Sequence[str]
    fault_rate: float
    streams: Optional[Path]
    report: Optional[Path]
    audit: Optional[str]
    sweep: Sequence[float]
    quiet: bool

    def late_nodes(self) -> range:
        """Those that join late: the last ones."""
        return range(self.nodes - self.late, self.nodes)

    def liar_nodes(self) -> range:
        """Those that lie: the ones before."""
        return range(self.nodes - self.late - self.liars, self.nodes - self.late)

    def killed_nodes(self) -> range:
        """Those that are killed: the first ones."""
        return range(self.kill)

    def first_weights(self) -> list[int]:
        """The weight of each node at the beginning; late nodes have none until the validators change."""
        rng = random.Random(f"{self.seed}/weights")
        if self.weights == "random":
            weights = [rng.randint(500, 1500) for _ in range(self.nodes)]
        else:
            given = [int(word) for word in self.weights.split(",")]
            weights = [given[i % len(given)] for i in range(self.nodes)]
        return [0 if i in self.late_nodes() else weight for i, weight in enumerate(weights)]

    def second_weights(self) -> list[int]:
        """The weights after the change: liars keep theirs, late nodes get one, the last honest node from the
        beginning leaves, and each other honest weight is half to one and a half of what it was."""
        rng = random.Random(f"{self.seed}/change")
        first = self.first_weights()
        ordinary = max(1, sum(first) // max(1, self.nodes - self.late))
        weights = []
        for i, weight in enumerate(first):
            if i in self.late_nodes():
                weights.append(ordinary)
            elif i in self.liar_nodes():
                weights.append(weight)
            else:
                weights.append(max(1, rng.randint(weight // 2, weight + weight // 2)))
        leaver = self.nodes - self.late - self.liars - 1
        if leaver > self.kill:
            weights[leaver] = 0
        return weights

    def liars_share(self) -> float:
        """The liars' part of the first weights."""
        weights = self.first_weights()
        return sum(weights[i] for i in self.liar_nodes()) / sum(weights)


def _span(text: str) -> tuple[int, int]:
    low, _, high = text.partition(":")
    return int(low), int(high or low)


def _shares(text: str) -> list[float]:
    return [float(word) for word in text.split(",")]


def _parser() -> argparse.ArgumentParser:
    parser = argparse.ArgumentParser(
        prog="network.py", formatter_class=argparse.ArgumentDefaultsHelpFormatter,
        description="Runs a network of processes of the program on one machine, in simulated time.")
    parser.add_argument("program", help="the built program")
    nodes = parser.add_argument_group("nodes")
    nodes.add_argument("--nodes", type=int, default=25, help="how many there are in all")
    nodes.add_argument("--weights", default="1000", help="weights, used in turn, or 'random'")
    nodes.add_argument("--liars", type=int, default=2, help="how many lie")
    nodes.add_argument("--lie", choices=("random", "split"), default="random",
                       help="at random and with unknown blocks, or by showing two halves two chains")
    nodes.add_argument("--late", type=int, default=2, help="how many join at a third of the heights, by bootstrapping")
    nodes.add_argument("--kill", type=int, default=1, help="how many are killed at a quarter of the heights")
    nodes.add_argument("--down", type=int, default=1000, metavar="MS", help="after which time they come back")
    nodes.add_argument("--no-change", dest="change", action="store_false", help="keep the validators as they are")
    _add_chain(parser)
    _add_network(parser)
    _add_output(parser)
    return parser


def _add_chain(parser: argparse.ArgumentParser) -> None:
    chain = parser.add_argument_group("chain and decisions")
    chain.add_argument("--heights", type=int, default=40, help="how many blocks are to be accepted")
    chain.add_argument("--interval", type=int, default=150, metavar="MS", help="time between two proposals")
    chain.add_argument("--conflicts", type=float, default=0.3, metavar="SHARE", help="proposals that have a rival")
    chain.add_argument("--k", type=int, default=20, help="units of weight asked in a poll")
    chain.add_argument("--alpha-preference", type=int, default=15, help="votes that change a preference")
    chain.add_argument("--alpha-confidence", type=int, default=15, help="votes that add confidence")
    chain.add_argument("--beta", type=int, default=20, help="polls in a row that decide")
    chain.add_argument("--repolls", type=int, default=4, help="polls at a time")


def _add_network(parser: argparse.ArgumentParser) -> None:
    network = parser.add_argument_group("network")
    network.add_argument("--loss", type=float, default=0.02, metavar="SHARE", help="messages that are lost")
    network.add_argument("--delay", type=_span, default="20:80", metavar="MS:MS", help="how long a message takes")
    network.add_argument("--timeout", type=int, default=250, metavar="MS", help="how long an answer is awaited")
    network.add_argument("--tries", type=int, default=2, help="how often a question is sent before it has timed out")
    network.add_argument("--gossip", type=int, default=500, metavar="MS",
                         help="how often a node shows its preferred block to another")
    network.add_argument("--step", type=int, default=5, metavar="MS", help="to which steps times are rounded up")
    network.add_argument("--limit", type=int, default=120_000, metavar="MS", help="when to give up")
    network.add_argument("--seed", type=int, default=1, help="all that is random follows from it")
    network.add_argument("--fault", dest="faults", action="append", choices=sorted(router.FAULTS), default=[],
                         help="plant a fault in the router: answers given twice, with another request's number, "
                              "or with a block's bytes changed; may be given more than once")
    network.add_argument("--fault-rate", type=float, default=0.2, metavar="SHARE", help="messages that it meets")


def _add_output(parser: argparse.ArgumentParser) -> None:
    output = parser.add_argument_group("output")
    output.add_argument("--streams", type=Path, metavar="FOLDER", help="keep the nodes' streams here")
    output.add_argument("--report", type=Path, metavar="FILE.html", help="write a page about the run")
    output.add_argument("--audit", metavar="PROGRAM", help="audit each node's stream with this program")
    output.add_argument("--sweep", type=_shares, nargs="?", default=[], const=SWEPT, metavar="LOSS,LOSS..",
                        help="run over these losses (0 to 30 %% where none are named) and over liars of up to a third "
                             "of the weight, and print one table")
    output.add_argument("--quiet", action="store_true", help="no lines of progress")


def _complaint(given: argparse.Namespace) -> Optional[str]:
    """What is wrong with the numbers; None where they make a network."""
    honest = given.nodes - given.late - given.liars
    for program in (given.program, given.audit or given.program):
        if not shutil.which(program):
            return f"there is no program {program}"
    if min(given.nodes, given.heights, given.interval, given.step, given.timeout, given.tries, given.gossip) < 1:
        return "nodes, heights and times are at least 1"
    if min(given.liars, given.late, given.kill, given.down) < 0 or honest < 1 or given.kill > honest:
        return "at least one node is honest from the beginning, and only such are killed"
    if given.nodes > 4096:
        return "there are at most 4,096 nodes"
    if not 0 <= given.delay[0] <= given.delay[1]:
        return "a delay is LEAST:MOST"
    if not all(0 <= share <= 1 for share in (given.loss, given.conflicts, given.fault_rate, *given.sweep)):
        return "shares are from 0 to 1"
    if given.weights != "random" and not all(w.isdigit() and int(w) for w in given.weights.split(",")):
        return "weights are numbers above 0 with commas between, or 'random'"
    return None


def read(words: Sequence[str]) -> Options:
    """The options that the words ask for; ends the program with status 2 where they make no network."""
    parser = _parser()
    given = parser.parse_args(words)
    complaint = _complaint(given)
    if complaint:
        parser.error(complaint)
    values = vars(given)
    params = Params(*(values.pop(name) for name in Params._fields))
    options = Options(params=params, **values)
    if params.k > sum(options.first_weights()):
        parser.error("k is above the weight of all nodes that have one at the beginning")
    return options
