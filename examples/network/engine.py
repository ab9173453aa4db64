"""One process of the program: frames go in, and each frame's lines come out."""

import os
import select
import subprocess
from collections import deque
from pathlib import Path
from typing import Optional, Sequence

import frames

READ = 1 << 20


class EngineEnded(Exception):
    """A process ended by itself; the text says in which life of which node."""


class Recorder:
    """Keeps the stream of one life: as it was handed in, and with its lines, as an audit reads it."""

    def __init__(self, folder: Path, name: str) -> None:
        self.stream_path = folder / f"{name}.stream"
        self.audited_path = folder / f"{name}.audited"
        self.count = 0
        self._stream = open(self.stream_path, "wb")
        self._audited = open(self.audited_path, "wb")

    def keep(self, frame: bytes, lines: Sequence[str]) -> None:
        """Keeps one frame with the lines that it wrote."""
        self._stream.write(frame)
        self._audited.write(frame + frames.lines(lines))
        self.count += len(lines)

    def close(self) -> None:
        """Brings all to the files."""
        self._stream.close()
        self._audited.close()


class Engine:
    """A process of `snowman run --chain tally`.

    Behind each event goes a fence, an empty frame. Its line `skip N short`, with the fence's own number, says that
    the event's lines are all there. So many events can be handed in at once, and each line still has its event.
    """

    def __init__(self, program: str, recorder: Recorder) -> None:
        self.recorder = recorder
        self._process = subprocess.Popen(
            [program, "run", "--chain", "tally"],
            stdin=subprocess.PIPE, stdout=subprocess.PIPE, stderr=subprocess.PIPE, bufsize=0)
        assert self._process.stdin and self._process.stdout
        self._in = self._process.stdin.fileno()
        self._out = self._process.stdout.fileno()
        os.set_blocking(self._in, False)
        self._frames = 0
        self._events: list[tuple[bytes, str]] = []
        self._outgoing = b""
        self._text = bytearray(b"\n")

    def hand_in(self, events: Sequence[bytes]) -> None:
        """Writes the frames, a fence behind each, as far as the pipe takes them."""
        parts = [self._outgoing]
        for event in events:
            self._frames += 2
            self._events.append((event, f"skip {self._frames} short"))
            parts += (event, frames.FENCE)
        self._outgoing = b"".join(parts)
        self._push()

    def collect(self) -> list[list[str]]:
        """Waits for all lines of the events that were handed in, and returns them by event."""
        if not self._events:
            return []
        last = f"\n{self._events[-1][1]}\n".encode("ascii")
        while not self._text.endswith(last):
            self._serve()
        return self._part()

    def _part(self) -> list[list[str]]:
        """Parts the text that came by event, and records it; where the process ended, up to the event at which."""
        lines = deque(self._text[1:].decode("ascii").splitlines())
        self._text = bytearray(b"\n")
        groups = []
        for event, fence in self._events:
            group = []
            while lines and lines[0] != fence:
                group.append(lines.popleft())
            self.recorder.keep(event, group)
            if not lines:
                break  # the process ended here
            self.recorder.keep(frames.FENCE, [lines.popleft()])
            groups.append(group)
        self._events.clear()
        return groups

    def _push(self) -> None:
        try:
            self._outgoing = self._outgoing[os.write(self._in, self._outgoing):]
        except BlockingIOError:
            pass
        except BrokenPipeError:
            self._outgoing = b""

    def _serve(self) -> None:
        """Reads what came. While frames are left to write it serves both pipes, since the process may wait for
        either."""
        if self._outgoing:
            poll = select.poll()
            poll.register(self._in, select.POLLOUT)
            poll.register(self._out, select.POLLIN)
            ready = {descriptor for descriptor, _ in poll.poll()}
            if self._in in ready:
                self._push()
            if self._out not in ready:
                return
        text = os.read(self._out, READ)
        if not text:
            raise EngineEnded(self.recorder.stream_path.stem)
        self._text += text

    def _ending(self) -> str:
        """Ends the input, waits for the process, and records what it wrote until then."""
        text, told = self._process.communicate()
        self._text += text
        self._part()
        return f"status {self._process.returncode}: {told.decode('ascii', 'replace').strip()}"

    def kill(self) -> None:
        """Ends the process as a power cut would."""
        self._process.kill()
        self._process.communicate()
        self.recorder.close()

    def close(self) -> Optional[str]:
        """Ends the input. Returns None where the process then ends well, else how it ended."""
        ending = self._ending()
        self.recorder.close()
        return None if ending == "status 0: " else ending
