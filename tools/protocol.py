"""Messages of JSON-RPC 2.0 over a pair of streams, as the Language Server Protocol has them: a head that says how long the body is,
and the body."""
import json

PARSE_ERROR, INVALID_REQUEST, UNKNOWN_METHOD, INVALID_PARAMS, INTERNAL_ERROR = -32700, -32600, -32601, -32602, -32603
NOT_INITIALIZED, CANCELLED = -32002, -32800
# A message of more bytes isn't read, and no line of a head is longer.
MOST_BYTES, LONGEST_LINE = 1 << 28, 1 << 12


class Fault(Exception):
    """An error that answers a request: its code and its text."""

    def __init__(self, code, text):
        super().__init__(text)
        self.code, self.text = code, text


def length_of_body(stream):
    """The length that the next head says, or nothing at the end of the stream. Lines that are of no head are passed over."""
    length = None
    while True:
        line = stream.readline(LONGEST_LINE)
        if not line:
            return None
        name, _, value = line.partition(b":")
        if name.strip().lower() == b"content-length" and value.strip().isdigit():
            length = int(value)
        elif not line.strip() and length is not None:
            return length


def read(stream):
    """The next message, or nothing at the end of the stream. Raises Fault where it is none."""
    length = length_of_body(stream)
    if length is None:
        return None
    if length > MOST_BYTES:
        raise Fault(PARSE_ERROR, f"a message has more than {MOST_BYTES} bytes")
    body = stream.read(length)
    if len(body) < length:
        return None
    try:
        message = json.loads(body)
    except (ValueError, RecursionError) as fault:
        raise Fault(PARSE_ERROR, f"a message isn't JSON: {fault}") from None
    if not isinstance(message, dict) or not isinstance(message.get("method", ""), str):
        raise Fault(INVALID_REQUEST, "a message is no request, notification or answer")
    return message


def write(stream, message):
    """Writes a message."""
    body = json.dumps({"jsonrpc": "2.0", **message}).encode()
    stream.write(b"Content-Length: %d\r\n\r\n%b" % (len(body), body))
    stream.flush()
