"""The frames of the Debug Adapter Protocol: a header with the length of a JSON message, and the message.

    read(stream)               the next request, None at the end of the stream
    Writer(stream).send(..)    writes a message, with its number

A frame whose content is not a request is left out (NoRequest). After a wrong header nothing else can be read
(Broken). No header but Content-Length and Content-Type is read, so a page in a browser cannot send a request
to the adapter's port: the lines of HTTP break the stream."""
import json
import threading

# How long a line of a header and a message may be.
LONGEST_LINE, LARGEST = 1 << 10, 1 << 24
HEADERS = (b"content-length", b"content-type")


class Broken(Exception):
    """The stream has no further messages: its text says why."""


class NoRequest(Exception):
    """A message that is not a request: its text says why."""


def read(stream):
    """The next request, None at the end of the stream."""
    length = read_length(stream)
    if length is None:
        return None
    body = stream.read(length)
    if len(body) < length:
        raise Broken(f"the input ends after {len(body)} of {length} bytes of a message")
    return request_of(body)


def read_length(stream):
    """The length that a header names, None at the end of the stream."""
    length, is_begun = None, False
    while line := stream.readline(LONGEST_LINE):
        if not line.endswith(b"\n"):
            break
        if not line.strip():
            if length is None:
                raise Broken("a message has no Content-Length")
            return length
        is_begun = True
        name, _, value = line.partition(b":")
        if name.strip().lower() not in HEADERS:
            raise Broken("a header is neither Content-Length nor Content-Type")
        if name.strip().lower() == b"content-length":
            length = length_of(value.strip())
    if len(line) >= LONGEST_LINE:
        raise Broken(f"a header has more than {LONGEST_LINE} bytes")
    if line or is_begun:
        raise Broken("the input ends within a header")
    return None


def length_of(text):
    if not text.isdigit() or len(text) > 20:
        raise Broken("Content-Length is not a number")
    if int(text) > LARGEST:
        raise Broken(f"a message has {int(text)} bytes, and {LARGEST} at most are read")
    return int(text)


def request_of(body):
    """The request that a message is."""
    try:
        value = json.loads(body)
    except (ValueError, RecursionError):
        raise NoRequest("a message is not JSON, and is left out") from None
    if not isinstance(value, dict) or value.get("type") != "request":
        raise NoRequest("a message is not a request, and is left out")
    if type(value.get("seq")) is not int or not isinstance(value.get("command"), str):
        raise NoRequest("a request has no number or no command, and is left out")
    return value


class Writer:
    """Writes messages, each with its number; several threads may write."""

    def __init__(self, stream):
        self.stream, self.lock, self.number = stream, threading.Lock(), 0

    def send(self, kind, **members):
        with self.lock:
            self.number += 1
            text = json.dumps({"seq": self.number, "type": kind, **members}, separators=(",", ":"))
            self.stream.write(f"Content-Length: {len(text)}\r\n\r\n{text}".encode())
            self.stream.flush()

    def event(self, name, **body):
        self.send("event", event=name, body=body)
