"""For bench/where.sh: follows the traces of the examples, and of the cases of traces and audits, and compares the contract of each line
with the one in which the model evaluates it. Runs itself as another process for the model, whose modules have names of these tools."""
import json
import pathlib
import subprocess
import sys

sys.dont_write_bytecode = True
ROOT = pathlib.Path(__file__).resolve().parent.parent
THEMES = ("traces", "audit", "worked_rows", "runs", "contracts", "calls", "natives", "later_natives", "epochs")


def transaction_files():
    """The transaction files, each with what it is called."""
    for path in sorted((ROOT / "examples").glob("*.json")):
        if path.name != "unit.json":
            yield path.name, path.read_text()
    for theme in THEMES:
        held = json.loads((ROOT / "crates" / "cases" / "data" / f"{theme}.json").read_text())
        for case in held["cases"]:
            for content in {**held.get("files", {}), **case.get("files", {})}.values():
                if isinstance(content, dict) and isinstance(content.get("json"), dict) and content["json"].get("entries"):
                    yield f"{theme}: {case['name']}", json.dumps(content["json"])


def evaluated():
    """Prints for each transaction file its outcomes and claims, each with its contract, by the model under the unit table."""
    sys.path.insert(0, str(ROOT / "tools" / "model"))
    import node
    from addresses import write_principal
    from costs import Schedule, unit_table
    from evaluation import Evaluator
    from natives import native
    from transactions import BadFile, read_transactions
    from values import wire

    class Watched(Evaluator):
        """An evaluator that notes the contract of each claim."""

        def evaluate(self, frame, item, bound):
            value = super().evaluate(frame, item, bound)
            self.trace[-1] += (write_principal(frame.principal),)
            return value

        def apply_by_name(self, frame, item, values):
            value = super().apply_by_name(frame, item, values)
            if native(item.value, frame.contract.version):
                self.trace[-1] += (write_principal(frame.principal),)
            return value

    node.Evaluator = Watched
    for name, text in transaction_files():
        try:
            file = read_transactions(text.encode())
        except BadFile:
            continue
        made = node.Node(Schedule(unit_table(), file.epochs), file.holders)
        results = [made.step(entry)[1] for entry in file.entries]
        claims = [[(start, end, wire(value).hex(), contract) for start, end, value, contract in result.trace] for result in results]
        print(json.dumps([name, text, [result.outcome for result in results], claims]))


def compared():
    """Prints a line for each entry with a trace."""
    sys.path.insert(0, str(ROOT / "tools"))
    from traces import Contracts, Walk

    ran = subprocess.run([sys.executable, __file__, "--model"], stdout=subprocess.PIPE, text=True, check=True)
    for name, text, outcomes, entries in map(json.loads, ran.stdout.splitlines()):
        kinds = [next(iter(entry.items())) for entry in json.loads(text)["entries"]]
        contracts = Contracts(kinds, {number: outcome == "done" for number, outcome in enumerate(outcomes) if kinds[number][0] == "deploy"})
        for number, claims in enumerate(entries):
            walk = Walk(contracts, number, [claim[:3] for claim in claims])
            came, wanted = [contract.principal for contract, _ in walk.places], [claim[3] for claim in claims]
            # A trace that ends before its time is of an entry that aborted, and not by a condition.
            is_right = came == wanted and not walk.is_lost and (walk.is_whole() or outcomes[number].startswith("aborted"))
            if claims:
                print("ok" if is_right else f"differs: {name}, entry {number}")


if __name__ == "__main__":
    evaluated() if sys.argv[1:] == ["--model"] else compared()
