"""Messages of JSON-RPC 2.0 with headers, as the Language Server Protocol has them, over two file descriptors. Knows nothing of M."""
from __future__ import annotations

import json
import os
import select
from collections import deque
from typing import Any

PARSE_ERROR = -32700
INVALID_REQUEST = -32600
METHOD_NOT_FOUND = -32601
INVALID_PARAMS = -32602
INTERNAL_ERROR = -32603
NOT_INITIALIZED = -32002
REQUEST_FAILED = -32803
REQUEST_CANCELLED = -32800

LONGEST_HEADER = 8_192
LONGEST_BODY = 134_217_728
PIECE = 1_048_576


class ResponseError(Exception):
    """What a request is answered with in place of a result."""

    def __init__(self, code: int, message: str) -> None:
        super().__init__(message)
        self.code, self.message = code, message


class Cancelled(Exception):
    """The client no longer wants the answer to the request at hand."""


class Malformed:
    """What came in place of a message, with the error that answers it."""

    def __init__(self, code: int, message: str) -> None:
        self.code, self.message = code, message


class Connection:
    """The messages of a client. `waiting` has those that came and weren't taken."""

    def __init__(self, source: int, target: int) -> None:
        self.source, self.target = source, target
        self.waiting: deque[dict[str, Any] | Malformed] = deque()
        self.is_closed = False
        self.left = bytearray()
        self.wanted: int | None = None  # the length of the body whose header was read
        self.dropped = 0  # bytes of a body that is too long, which are still to come

    def poll(self, timeout: float | None, *others: int) -> None:
        """Takes in what has come. Waits so long, or for ever, until something comes here or on one of the other descriptors."""
        if self.waiting:
            timeout = 0
        sources = list(others) if self.is_closed else [self.source, *others]
        if self.source in select.select(sources, [], [], timeout)[0]:
            piece = os.read(self.source, PIECE)
            self.is_closed = not piece
            self.take_in(piece)

    def take_in(self, piece: bytes) -> None:
        self.left += piece
        while self.next_message():
            pass

    def next_message(self) -> bool:
        """Takes one message, or a part of one, off what has come; whether there may be more."""
        if self.dropped:
            cut = min(self.dropped, len(self.left))
            del self.left[:cut]
            self.dropped -= cut
            return cut > 0 and bool(self.left)
        if self.wanted is None:
            return self.next_header()
        if len(self.left) < self.wanted:
            return False
        body = bytes(self.left[: self.wanted])
        del self.left[: self.wanted]
        self.wanted = None
        self.waiting.append(message_of(body))
        return True

    def next_header(self) -> bool:
        end = self.left.find(b"\r\n\r\n")
        if end < 0:
            if len(self.left) > LONGEST_HEADER:
                self.left.clear()
                self.waiting.append(Malformed(PARSE_ERROR, "no header ends here"))
            return False
        header = bytes(self.left[:end])
        del self.left[: end + 4]
        length = length_of(header)
        if length is None:
            self.waiting.append(Malformed(PARSE_ERROR, "a header without a Content-Length"))
        elif length > LONGEST_BODY:
            self.dropped = length
            self.waiting.append(Malformed(INVALID_REQUEST, f"a message has at most {LONGEST_BODY} bytes"))
        else:
            self.wanted = length
        return True

    def is_cancelled(self, identity: object) -> bool:
        """Whether a message that waits cancels this request."""
        return any(
            isinstance(message, dict) and message.get("method") == "$/cancelRequest" and params_of(message).get("id") == identity
            for message in self.waiting
        )

    def send(self, message: dict[str, Any]) -> None:
        body = json.dumps({"jsonrpc": "2.0", **message}, separators=(",", ":")).encode("ascii")
        left = memoryview(b"Content-Length: %d\r\n\r\n%s" % (len(body), body))
        while left:
            left = left[os.write(self.target, left) :]

    def notify(self, method: str, params: object) -> None:
        self.send({"method": method, "params": params})


def params_of(message: dict[str, Any]) -> dict[str, Any]:
    """The parameters of a message by their names; none where it has none."""
    params = message.get("params")
    return params if isinstance(params, dict) else {}


def length_of(header: bytes) -> int | None:
    """The length in a header, or None."""
    for line in header.split(b"\r\n"):
        name, _, value = line.partition(b":")
        if name.strip().lower() == b"content-length" and value.strip().isdigit() and len(value) < 20:
            return int(value)
    return None


def message_of(body: bytes) -> dict[str, Any] | Malformed:
    """The message that a body spells."""
    try:
        message = json.loads(body.decode("utf-8"))
    except (ValueError, RecursionError) as fault:
        return Malformed(PARSE_ERROR, f"no JSON: {fault}")
    if not isinstance(message, dict) or message.get("jsonrpc") != "2.0":
        return Malformed(INVALID_REQUEST, "a message is an object with jsonrpc 2.0")
    if not isinstance(message.get("method", ""), str) or not isinstance(message.get("id"), (str, int, type(None))):
        return Malformed(INVALID_REQUEST, "a method is a string, and an id a string or a whole number")
    return message
