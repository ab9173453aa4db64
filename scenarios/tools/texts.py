"""A text and the stream that it means, read without the program that is tried on it."""
from __future__ import annotations

from .chains import name_block
from .events import event_frame, line_frame
from .lines import line_text
from .values import BadText, Names, data

LONGEST = 2_097_152  # bytes of a payload
HEAD = 4  # bytes of its length


class Refused(Exception):
    """A text isn't taken at this line, the first one being 1."""

    def __init__(self, line: int) -> None:
        super().__init__(f"line {line}")
        self.line = line


def words_of(line: bytes) -> list[str]:
    """The words of a line, each byte a letter; what stands behind `#` is for people."""
    return [word for word in line.partition(b"#")[0].decode("latin-1").split(" ") if word]


def frame_of(words: list[str], names: Names) -> bytes:
    """The frame that a line says."""
    if words[0] == ">":
        return line_frame(line_text(words[1:], names).decode().encode("latin-1"))
    return event_frame(words, names)


def bytes_of(words: list[str], names: Names) -> bytes:
    """What a line adds to the stream: a frame, a rest, or nothing where it gives a block a name."""
    if words[0] == "rest":
        return data(words[1:], names)
    if words[0] == "name":
        name_block(words, names)
        return b""
    frame = frame_of(words, names)
    if len(frame) > HEAD + LONGEST:
        raise BadText(f"a payload of {len(frame) - HEAD} bytes is too long")
    return frame


def stream_of(text: bytes) -> bytes:
    """The stream that a text means, or `Refused` at its first line that isn't taken."""
    names: Names = {}
    found: list[bytes] = []
    is_over = False
    for number, line in enumerate(text.split(b"\n"), 1):
        words = words_of(line)
        if not words:
            continue
        try:
            if is_over:
                raise BadText("nothing stands behind 'rest'")
            found.append(bytes_of(words, names))
        except BadText as reason:
            raise Refused(number) from reason
        is_over = words[0] == "rest"
    return b"".join(found)
