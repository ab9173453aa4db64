"""An honest node: one process of the program, and the host that connects it.

The host has no opinion of its own. It makes a message of each line that asks for one, and a frame of each message
that comes; and it supplies what the engine has not: time, random words, a store, and blocks of its own making.
"""

import random
from typing import Callable, Optional, Sequence

import frames
import translation
from engine import Engine, Recorder
from frames import Block
from history import Decision, Note, Tally
from messages import ANSWER, Kind, Message
from questions import Requests
from store import Store
from world import World

MOST_WORDS = 4096
MOST_PAYLOAD = 2_097_152


class Node:
    """An engine and its host."""

    def __init__(self, index: int, world: World) -> None:
        self.index = index
        self.name = world.names[index]
        self.life = 0
        self.tally = Tally()
        self.store = Store(world.folder / f"node-{index + 1}.store")
        self.recorders: list[Recorder] = []
        self.complaint: Optional[str] = None
        self._world = world
        self._options = world.options
        self._places = {name.hex(): place for place, name in enumerate(world.names)}
        self._rng = random.Random(f"{world.options.seed}/node/{index}")
        self._made = 0
        self._engine: Optional[Engine] = None
        self._forget()

    # ------------------------------------------------------------ life

    def _forget(self) -> None:
        """Begins with what the store tells, as a process does that was just started."""
        self.running = False
        self.preference = self.store.last.id
        self._blocks: dict[bytes, Block] = {}
        self._requests = Requests(self._options.tries, self._options.timeout, self._ask, self._later, self._give_up)
        self._inbox: list[tuple[bytes, Optional[Message]]] = []
        self._handed: list[Optional[Message]] = []
        self._words = 0
        self._roster = self._world.roster_at(self.store.last.height)

    def open_queries(self) -> int:
        """How many queries aren't answered in full."""
        return self._requests.queries()

    def start(self, boot: bool) -> None:
        """Starts the engine on what the store holds; with `boot` it first catches up with its peers."""
        self.life += 1
        self._forget()
        recorder = Recorder(self._world.folder, f"node-{self.index + 1}.{self.life}")
        self.recorders.append(recorder)
        self._engine = Engine(self._options.program, recorder)
        self.running = not boot
        self._hand_in(frames.start(self._options.params, boot, self.store.last, self.store.total, self._roster))
        self._give_words()
        self._later(self._rng.randint(1, self._options.gossip), self._gossip)

    def kill(self) -> None:
        """Kills the process; what isn't in the store's file is gone."""
        if self._engine:
            self._engine.kill()
            self._engine = None
        self.running = False
        self.store = self.store.reopened()

    def close(self) -> None:
        """Ends the engine's input, and keeps a complaint where it doesn't end well."""
        if self._engine:
            self.complaint = self._engine.close()
            self._engine = None
        self.store.close()

    def _later(self, delay: int, function: Callable[[], None]) -> None:
        """Calls the function after a while, unless the node has been killed by then."""
        engine = self._engine

        def call(_: None) -> None:
            if engine is self._engine:
                function()

        self._world.schedule.after(delay, call, None)

    def _note(self, text: str) -> None:
        self._world.history.notes.append(Note(self._world.schedule.now, self.index, text))

    # ------------------------------------------------------------ frames in, lines out

    def _hand_in(self, frame: bytes, question: Optional[Message] = None) -> None:
        """Puts a frame behind those that are to be handed in, with the question of a peer that it is, if it is one.
        A frame that is too long would end the run."""
        if len(frame) <= 4 + MOST_PAYLOAD:
            self._inbox.append((frame, question))

    def flush(self) -> bool:
        """Hands the engine what came in this step, and returns whether there was anything."""
        if not self._engine or not self._inbox:
            return False
        self._engine.hand_in([frame for frame, _ in self._inbox])
        self._handed = [message for _, message in self._inbox]
        self._inbox = []
        return True

    def absorb(self) -> None:
        """Waits for the lines of what was handed in, and does what each asks for."""
        assert self._engine
        for message, lines in zip(self._handed, self._engine.collect()):
            for line in lines:
                word, *rest = line.split(" ")
                DEEDS[word](self, message, rest)
            if message and not lines:
                self._answer_from_store(message)

    # ------------------------------------------------------------ messages in

    def receive(self, message: Message) -> None:
        """Makes a frame of a message that came; where no process runs, nobody hears it."""
        if not self._engine:
            return
        self.tally.received += 1
        if message.kind in ANSWER:
            self._hear_question(message)
        elif message.kind is Kind.BLOCK:
            self._hear_block(message)
        elif message.life == self.life:
            self._hear_answer(message)

    def _hear_question(self, message: Message) -> None:
        """A node that bootstraps has no preference to tell; for the rest its host answers from the store."""
        if not self.running:
            self._answer_from_store(message)
            return
        self._hand_in(translation.question(message, self._world.names[message.source]), message)

    def _hear_block(self, message: Message) -> None:
        """With a number of no open get a block would be passed over, so it is handed in as one that came unasked."""
        awaited = message.life == self.life and self._requests.close(message)
        self._remember(message.blocks[0])
        if self.running:
            message = message if awaited else message._replace(request=0)
            self._hand_in(translation.answer(message, self._world.names[message.source]))

    def _hear_answer(self, message: Message) -> None:
        """The engine knows which answers it awaits, so all are handed in."""
        self.tally.late += not self._requests.close(message)
        for data in message.blocks:
            self._remember(data)
        self._hand_in(translation.answer(message, self._world.names[message.source]))

    def _remember(self, data: bytes) -> None:
        """Keeps a block's bytes until it is accepted or too low: `accept` names it, and the store wants its bytes."""
        block = frames.read_block(data)
        if block and block.height > self.store.last.height:
            self._blocks[block.id] = block

    # ------------------------------------------------------------ messages out

    def _send(self, message: Message) -> None:
        self.tally.sent += 1
        self._world.router.send(message)

    def _ask(self, kind: Kind, peer: int, number: int, ids: tuple[bytes, ...]) -> None:
        self._send(Message(kind, self.index, peer, self.life, number, ids))

    def _give_up(self, peer: int, number: int) -> None:
        """No answer came, and none is awaited any more."""
        self.tally.timeouts += 1
        self._hand_in(frames.timeout(self._world.names[peer], number))

    # ------------------------------------------------------------ what the engine has not

    def _give_words(self) -> None:
        """Hands in random words for some queries ahead. Here they follow from the seed; a validator takes them from
        a secure generator, since whoever knows them knows whom it asks."""
        count = min(MOST_WORDS, 8 * self._options.params.k)
        self._words += count
        self._hand_in(frames.words([self._rng.getrandbits(64) for _ in range(count)]))

    def _gossip(self) -> None:
        """Shows the preferred block to another node: one that missed it and has nothing pending asks nobody."""
        peer = self._rng.randrange(len(self._world.names))
        block = self._block(self.preference)
        if self.running and peer != self.index:
            self._show(block, peer)
        self._later(self._options.gossip, self._gossip)

    def _show(self, block: Block, peer: int) -> None:
        self._send(Message(Kind.BLOCK, self.index, peer, 0, 0, blocks=(block.data,)))

    def propose(self) -> None:
        """Makes a block on the preference, hands it in as any other and shows it to all."""
        parent = self._block(self.preference)
        if not self.running or parent.height >= self._options.heights:
            return
        self._made += 1
        note = self.name + self._made.to_bytes(4, "big")
        block = frames.tally_block(parent.id, parent.height + 1, self._rng.randint(1, 1000), note)
        self._world.history.propose(block, self.index, self._world.schedule.now)
        self._remember(block.data)
        self._hand_in(frames.block(self.name, 0, block.data))
        for peer in range(len(self._world.names)):
            if peer != self.index:
                self._show(block, peer)

    def _block(self, id: bytes) -> Block:
        return self._blocks.get(id) or self.store.last

    def _answer_from_store(self, message: Message) -> None:
        """What a host can answer without its engine: the engine bootstraps, or serves the block no more."""
        if message.kind is Kind.ASK_FRONTIER:
            self._send(message.answer(ids=(self.store.last.id,)))
        elif message.kind is Kind.ASK_ACCEPTED:
            self._send(message.answer(ids=tuple(filter(self.store.holds, message.ids))))
        elif message.kind is Kind.ASK_ANCESTORS:
            chain = self.store.ancestors(message.ids[0])
            if chain:
                self._send(message.answer(blocks=chain))
        elif message.kind is Kind.ASK_BLOCK:
            block = self.store.block(message.ids[0])
            if block:
                self._send(message.answer(blocks=(block.data,)))

    # ------------------------------------------------------------ lines

    def _on_query(self, _: Optional[Message], rest: list[str]) -> None:
        peers = [self._places[word.partition("*")[0]] for word in rest[2:]]
        self.tally.polls += 1
        self._words -= self._options.params.k
        if self._words < 4 * self._options.params.k:
            self._give_words()
        self._requests.ask(int(rest[0]), Kind.ASK_QUERY, peers)

    def _on_get(self, _: Optional[Message], rest: list[str]) -> None:
        self.tally.gets += 1
        self._requests.ask(int(rest[0]), Kind.ASK_BLOCK, [self._places[rest[1]]], (bytes.fromhex(rest[2]),))

    def _ask_all(self, number: str, kind: Kind, ids: Sequence[str]) -> None:
        peers = [self._places[name.hex()] for name, _ in self._roster]
        self._requests.ask(int(number), kind, peers, tuple(map(bytes.fromhex, ids)))

    def _on_frontier(self, _: Optional[Message], rest: list[str]) -> None:
        self._ask_all(rest[0], Kind.ASK_FRONTIER, [])

    def _on_accepted(self, _: Optional[Message], rest: list[str]) -> None:
        self._ask_all(rest[0], Kind.ASK_ACCEPTED, rest[1:])

    def _on_ancestors(self, _: Optional[Message], rest: list[str]) -> None:
        self._requests.ask(int(rest[0]), Kind.ASK_ANCESTORS, [self._places[rest[1]]], (bytes.fromhex(rest[2]),))

    def _on_accept(self, _: Optional[Message], rest: list[str]) -> None:
        block = self._blocks[bytes.fromhex(rest[0])]
        self.store.accept(block)
        self.tally.accepted += 1
        now = self._world.schedule.now
        self._world.history.accepted.append(Decision(self.index, block.id, block.height, now, not self.running))
        self._blocks = {id: other for id, other in self._blocks.items() if other.height >= block.height}
        if self.running:
            self._take_validators()

    def _take_validators(self) -> None:
        """Hands in the validators where the last accepted block changed them."""
        roster = self._world.roster_at(self.store.last.height)
        if roster is not self._roster:
            self._roster = roster
            self._hand_in(frames.validators(roster))
            self._world.history.changes.append(self._world.schedule.now)

    def _on_reject(self, _: Optional[Message], rest: list[str]) -> None:
        id = bytes.fromhex(rest[0])
        self.tally.rejected += 1
        block = self._blocks.get(id)
        height = block.height if block else 0
        self._world.history.rejected.append(Decision(self.index, id, height, self._world.schedule.now, False))

    def _on_prefer(self, _: Optional[Message], rest: list[str]) -> None:
        self.preference = bytes.fromhex(rest[0])

    def _on_drop(self, _: Optional[Message], rest: list[str]) -> None:
        self.tally.given_up += 1

    def _on_drop_query(self, _: Optional[Message], rest: list[str]) -> None:
        self.tally.unsent += 1
        if rest[0] == "words":
            self._words = 0
            self._give_words()

    def _on_bootstrapped(self, _: Optional[Message], rest: list[str]) -> None:
        self.running = True
        self.preference = bytes.fromhex(rest[0])
        self._note(f"caught up at height {rest[1]}")
        self._take_validators()

    def _on_nothing(self, _: Optional[Message], rest: list[str]) -> None:
        """A line that asks for nothing: a frame passed over, bootstrapping begun anew."""

    def _on_to_chits(self, message: Optional[Message], rest: list[str]) -> None:
        assert message
        self._send(message.answer(ids=(bytes.fromhex(rest[2]), bytes.fromhex(rest[3]))))

    def _on_to_frontier(self, message: Optional[Message], rest: list[str]) -> None:
        assert message
        self._send(message.answer(ids=(bytes.fromhex(rest[2]),)))

    def _on_to_accepted(self, message: Optional[Message], rest: list[str]) -> None:
        """The engine names what it accepted in this life; the store knows of those before."""
        assert message
        named = set(rest[2:])
        ids = tuple(id for id in message.ids if id.hex() in named or self.store.holds(id))
        self._send(message.answer(ids=ids))

    def _on_to_blocks(self, message: Optional[Message], rest: list[str]) -> None:
        assert message
        blocks = tuple(b"" if word == "." else bytes.fromhex(word) for word in rest[2:])
        self._send(message.answer(blocks=blocks))


DEEDS: dict[str, Callable[[Node, Optional[Message], list[str]], None]] = {
    "query": Node._on_query,
    "get": Node._on_get,
    "frontier": Node._on_frontier,
    "accepted": Node._on_accepted,
    "ancestors": Node._on_ancestors,
    "accept": Node._on_accept,
    "reject": Node._on_reject,
    "prefer": Node._on_prefer,
    "drop": Node._on_drop,
    "drop-query": Node._on_drop_query,
    "bootstrapped": Node._on_bootstrapped,
    "restart": Node._on_nothing,
    "skip": Node._on_nothing,
    "to-chits": Node._on_to_chits,
    "to-frontier": Node._on_to_frontier,
    "to-accepted": Node._on_to_accepted,
    "to-ancestors": Node._on_to_blocks,
    "to-block": Node._on_to_blocks,
}
"""What each line asks of the host, by its first word."""
