"""The binding of bindings/python, as far as the console uses it, over tools/model in place of the library: for tests where no library is
built, and of what another engine answers. As a program it is the model's side: each line of standard input is a request."""
import enum
import json
import pathlib
import signal
import subprocess
import sys

MODEL = pathlib.Path(__file__).resolve().parents[2] / "tools" / "model"


class Status(enum.IntEnum):
    DONE = 0
    FILE = 5
    MEMORY = 9
    FALLS = 12


class Failed(Exception):
    def __init__(self, status, text=b"", done=0):
        super().__init__(f"{status} {text.decode()}")
        self.status, self.text, self.done = status, text, done


class Bounds:
    def __init__(self, deploy, functions):
        self.deploy, self.functions = deploy, functions


class Break:
    def __init__(self, rule, *names, span):
        self.rule, self.names, self.span = rule, names, span


class Engine:
    def __init__(self, library):
        self.model = subprocess.Popen([sys.executable, "-B", __file__], stdin=subprocess.PIPE, stdout=subprocess.PIPE)

    def ask(self, *request):
        """The answer to a request. Raises Failed."""
        self.model.stdin.write(json.dumps(request).encode() + b"\n")
        self.model.stdin.flush()
        status, answer = json.loads(self.model.stdout.readline())
        if status:
            raise Failed(Status(status), answer.encode())
        return answer

    def wire(self, text):
        return bytes.fromhex(self.ask("wire", text))

    def text(self, wire):
        return self.ask("text", wire.hex())

    def answer(self, words, files):
        files = {name: file if isinstance(file, str) else file.decode() for name, file in files.items()}
        status, text = self.ask("answer", words, files)
        return status, text.encode()

    def costs(self, file):
        self.ask("costs", file.decode())
        return file

    def node(self, costs, file=b""):
        return Node(self, self.ask("open", costs.decode(), file.decode()))


class Node:
    def __init__(self, engine, number):
        self.engine, self.number = engine, number

    def run(self, file):
        return self.engine.ask("run", self.number, file.decode()).encode()

    def check(self, contract, source, version=1):
        rule, found, names = self.engine.ask("check", self.number, contract.hex(), source.hex(), version)
        return Break(rule, *names, span=slice(*found)) if rule else Bounds(*found)

    def state(self):
        return self.engine.ask("state", self.number).encode()

    @property
    def height(self):
        return self.engine.ask("height", self.number)


class Model:
    """The model's side: nodes by their numbers."""

    def __init__(self):
        self.nodes = []

    def wire(self, text):
        return values.wire(values.parse(text.encode())).hex()

    def text(self, wire):
        return values.write_value(values.decode(bytes.fromhex(wire)))

    def answer(self, words, files):
        given = commands.answer(words, commands.Files({name: file.encode() for name, file in files.items()}))
        return given.status, "".join(line + "\n" for line in given.lines)

    def costs(self, file):
        costs.read_costs(file.encode())

    def open(self, table, file):
        try:
            holders = transactions.read_transactions(file.encode()).holders if file else {}
        except transactions.BadFile:
            raise Failed(Status.FILE) from None
        self.nodes.append(node.Node(costs.Schedule(costs.read_costs(table.encode())), holders))
        return len(self.nodes) - 1

    def run(self, number, file):
        entries, opened, written = transactions.read_transactions(file.encode()).entries, self.nodes[number], []
        heights = [entry.members["height"] for entry in entries if entry.kind == "block"]
        if heights and heights[0] < opened.height:
            raise Failed(Status.FALLS)
        for place, entry in enumerate(entries):
            written += node.lines(place, *opened.step(entry))
        return "".join(line + "\n" for line in written)

    def check(self, number, contract, source, version):
        opened, (_, principal) = self.nodes[number], values.decode(bytes.fromhex(contract))
        try:
            checked = checking.check(opened.contracts, principal, bytes.fromhex(source), version)
            return ["", bounds.bounds_of(checked, opened.table()), []]
        except texts.Break as fault:
            rule, name, span, *names = fault.text().split(" ")
            return [f"{rule} {name}", list(map(int, span.split(".."))), names]

    def state(self, number):
        return "".join(line + "\n" for line in rows.state_lines(self.nodes[number].state))

    def height(self, number):
        return self.nodes[number].height


def serve():
    """Answers requests to the end of standard input."""
    signal.signal(signal.SIGINT, signal.SIG_IGN)
    model = Model()
    for line in sys.stdin:
        name, *given = json.loads(line)
        try:
            answer = 0, getattr(model, name)(*given)
        except Failed as failed:
            answer = failed.status, failed.text.decode()
        except (transactions.BadFile, costs.BadCosts) as fault:
            answer = Status.FILE, f"bad file - {fault}\n"
        print(json.dumps(answer), flush=True)


if __name__ == "__main__":
    sys.path[0] = str(MODEL)
    sys.setrecursionlimit(20000)
    import bounds
    import checking
    import commands
    import costs
    import node
    import rows
    import texts
    import transactions
    import values

    serve()
