"""For bench/language_server.sh: an editor that speaks the Language Server Protocol to tools/language_server."""
import json
import pathlib
import re
import signal
import subprocess

# A server that sends nothing for so long ends the test.
MOST_SECONDS = 120
SERVER = pathlib.Path(__file__).resolve().parent.parent / "tools" / "language_server"


def framed(message):
    body = json.dumps({"jsonrpc": "2.0", **message}).encode()
    return b"Content-Length: %d\r\n\r\n%b" % (len(body), body)


class Editor:
    """A server that was started, and what it sent meanwhile."""

    def __init__(self, folder=None, settings=None, begins=True):
        self.server = subprocess.Popen([SERVER], stdin=subprocess.PIPE, stdout=subprocess.PIPE)
        self.number, self.seen = 0, []
        if begins:
            uri = pathlib.Path(folder).resolve().as_uri() if folder else None
            self.begun = self.ask("initialize", {"processId": None, "rootUri": uri, "capabilities": {}, "initializationOptions": settings})
            self.tell("initialized", {})

    def send(self, raw):
        self.server.stdin.write(raw)
        self.server.stdin.flush()

    def tell(self, method, params):
        self.send(framed({"method": method, "params": params}))

    def receive(self):
        """The next message, or nothing at the end."""
        length = None
        signal.alarm(MOST_SECONDS)
        while True:
            line = self.server.stdout.readline()
            if not line:
                return None
            if line == b"\r\n":
                return json.loads(self.server.stdout.read(length))
            length = int(re.fullmatch(rb"Content-Length: ([0-9]+)\r\n", line)[1])

    def wait(self, is_wanted):
        """The first message that is wanted."""
        while True:
            message = self.receive()
            if message is None or is_wanted(message):
                return message
            self.seen.append(message)

    def ask(self, method, params):
        """The answer to a request: its result or its error."""
        self.number += 1
        self.send(framed({"id": self.number, "method": method, "params": params}))
        answer = self.wait(lambda message: message.get("id") == self.number)
        return answer.get("result", answer.get("error")) if answer else None

    def open(self, uri, text, version=1):
        self.tell("textDocument/didOpen", {"textDocument": {"uri": uri, "languageId": "clarity", "version": version, "text": text}})

    def close(self, uri):
        self.tell("textDocument/didClose", {"textDocument": {"uri": uri}})

    def diagnostics(self, uri, version=1):
        """The diagnostics that come next of this version of a document."""
        wanted = {"uri": uri, "version": version}
        message = self.wait(lambda message: wanted.items() <= message.get("params", {}).items())
        return message["params"]["diagnostics"] if message else None

    def end(self):
        """The status with which the server ends when it is asked to."""
        self.ask("shutdown", None)
        self.tell("exit", None)
        return self.server.wait(30)
