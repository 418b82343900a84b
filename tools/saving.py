"""Writes a session of the console as a scenario that wants what it gave."""
from report_reader import EVENTS, line_of
from typed import with_names


def numbers(five):
    return " ".join(map(str, five))


class Scenario:
    """The lines of a scenario and its sources, by names of files that begin with this stem."""

    def __init__(self, session, stem):
        self.names, self.stem, self.sources = session.names, stem, {}
        self.lines = [f"name {word} {address}" for word, address in session.names.items()]
        self.lines += [f"stx {self.word(holder['principal'])} {holder['stx']}" for holder in session.holders]
        for entry in session.entries:
            self.add(entry)

    def word(self, principal):
        return with_names("'" + principal, self.names)[1:]

    def add(self, entry):
        getattr(self, "add_" + entry.kind)(entry.members, entry.came)
        if entry.kind == "block":
            return
        members, came = entry.members, entry.came
        self.lines += ["    clarity 2"] * ("clarity" in members)
        self.lines += [f"    limit {numbers(members['limit'])}"] if "limit" in members else []
        self.lines.append(f"    cost {numbers(came['cost'])}")
        self.lines += ["    event " + with_names(line_of("event", event, EVENTS, ("contract",)), self.names) for event in came["events"]]

    def add_block(self, members, _):
        self.lines.append(f"block {members['height']}")

    def add_deploy(self, members, came):
        path, number = f"{self.stem}.{members['name']}.clar", 1
        while path in self.sources:
            number += 1
            path = f"{self.stem}.{members['name']}.{number}.clar"
        self.sources[path] = members["source"]
        self.lines.append(f"deploy {self.word(members['sender'])} {members['name']} {path} => {came['text']}")

    def add_call(self, members, came):
        words = [self.word(members["sender"]), self.word(members["contract"]), members["function"]]
        words += [with_names(" ".join(argument.split("\n")), self.names) for argument in members["args"]]
        self.lines.append(f"call {' '.join(words)} => {with_names(came['text'], self.names)}")
