"""Messages of the Debug Adapter Protocol: how they come in, and how they go out."""
import collections
import contextlib
import json
import threading
from typing import BinaryIO, Iterator, Union

MOST_OF_A_MESSAGE, MOST_OF_A_LINE = 1 << 26, 1 << 12  # bytes
URGENT = ("pause", "disconnect", "terminate", "cancel")


class Broken(str):
    """What came in place of a message, in words."""


def _head(stream: BinaryIO):
    """The size that the head of a message tells; None at the end of the stream, and -1 for a head that tells none."""
    size = None
    while True:
        line = stream.readline(MOST_OF_A_LINE)
        if not line:
            return None
        if not line.strip():
            if size is not None:
                return size
            continue
        name, _, value = line.partition(b":")
        if name.strip().lower() == b"content-length":
            size = int(value) if value.strip().isdigit() and len(value) < 20 else -1
        elif name.strip().lower() != b"content-type" and size is None:
            size = -1


def _body(stream, size):
    """The bytes of a message, or of one that is too large none."""
    if size <= MOST_OF_A_MESSAGE:
        return stream.read(size)
    while size > 0:
        size -= len(stream.read(min(size, 1 << 16)) or b" " * size)
    return None


def messages(stream: BinaryIO) -> Iterator[Union[dict, Broken]]:
    """The messages of a stream, up to its end."""
    while (size := _head(stream)) is not None:
        text = _body(stream, size) if size >= 0 else b""
        if text is None:
            yield Broken("a message is too large")
            continue
        if size < 0:
            yield Broken("a message has no size")
            continue
        try:
            message = json.loads(text)
            yield message if isinstance(message, dict) else Broken("a message is no object")
        except (ValueError, RecursionError):
            yield Broken("a message is no JSON")


class Inbox:
    """Messages as they come, read by a thread of its own. A request that is cancelled before its turn has `cancelled`
    in it."""

    def __init__(self, stream: BinaryIO):
        self._waiting, self._has_some, self._is_over = collections.deque(), threading.Condition(), False
        threading.Thread(target=self._read, args=(stream,), daemon=True).start()

    def _read(self, stream):
        try:
            with contextlib.suppress(OSError, ValueError):
                for message in messages(stream):
                    self._put(message)
        finally:
            with self._has_some:
                self._is_over = True
                self._has_some.notify()

    def _put(self, message):
        with self._has_some:
            if isinstance(message, dict) and message.get("command") == "cancel":
                arguments = message.get("arguments")
                number = arguments.get("requestId") if isinstance(arguments, dict) else None
                for it in self._waiting:
                    if isinstance(it, dict) and number is not None and it.get("seq") == number:
                        it["cancelled"] = True
            self._waiting.append(message)
            self._has_some.notify()

    def has_urgent(self) -> bool:
        """Whether somebody asks to pause, or to end."""
        with self._has_some:
            return self._is_over or any(isinstance(it, dict) and it.get("command") in URGENT for it in self._waiting)

    def take(self, waits: bool):
        """The next message; None where none is there, or at the end, for which `is_over` tells."""
        with self._has_some:
            while waits and not self._waiting and not self._is_over:
                self._has_some.wait()
            return self._waiting.popleft() if self._waiting else None

    @property
    def is_over(self) -> bool:
        with self._has_some:
            return self._is_over and not self._waiting


class Outbox:
    """Messages that go out, each with its number."""

    def __init__(self, stream: BinaryIO):
        self._stream, self._number = stream, 0

    def put(self, kind: str, **members) -> None:
        self._number += 1
        text = json.dumps({"seq": self._number, "type": kind, **members}).encode("ascii")
        self._stream.write(b"Content-Length: %d\r\n\r\n%s" % (len(text), text))
        self._stream.flush()

    def event(self, name: str, **body) -> None:
        self.put("event", event=name, body=body)
