"""What is said of a source that an editor has open: the rule that it breaks, as a diagnostic of the Language Server Protocol."""
import advice
from breaks import Break
from calls import missing
from meanings import outline
from places import cause
from workspace import name_of, version_comment

ERROR, WARNING = 1, 2
NAMED = {"O1": "ring", "B1": "dimension"}


class Verdict:
    """Whether a source is accepted, and the rule that it breaks: the `Break` of the library, what is said of it, and the document of a
    contract that isn't there because it is refused, with its break."""

    def __init__(self, workspace, judge, document):
        self.document, self.bytes, self.broken, self.other = document, document.bytes, None, None
        source, before = workspace.source_of(document), workspace.before(document)
        sources = [workspace.source_of(one) for one in before]
        self.source, self.before = source, sources
        self.found, refused = judge.judged(source, sources)
        if self.found:
            rule, name = self.found.rule.split(" ")
            refusal = {"rule": rule, "name": name, "start": self.found.span.start, "end": self.found.span.stop}
            self.broken = Break(refusal, document.bytes, lambda: self.helps_version_2(judge))
            called = missing(rule, document.bytes, self.found.span, refused)
            if called:
                self.other = next(one for one in before if name_of(one.uri) == called), refused[called]

    def helps_version_2(self, judge):
        """Whether the source isn't refused at the same place as one of version 2."""
        if self.source.version == 2:
            return False
        found, _ = judge.judged(self.source._replace(version=2), self.before)
        return not found or (found.rule, found.span) != (self.found.rule, self.found.span)

    def diagnostics(self):
        """What an editor shows."""
        said = version_comment(self.document)
        of_comment = []
        if said and said[1] not in ("1", "2"):
            place = self.document.range(*said.span())
            of_comment = [{"range": place, "severity": WARNING, "source": "clarity", "message": "clarity-version is 1 or 2"}]
        if not self.broken:
            return of_comment
        span = self.found.span
        broken = {"range": self.document.range(span.start, span.stop), "severity": ERROR, "source": "clarity", "code": self.found.rule,
                  "message": self.message()}  # fmt: skip
        related = [{"location": {"uri": document.uri, "range": place}, "message": text} for document, place, text in self.related()]
        return [*of_comment, {**broken, **({"relatedInformation": related} if related else {})}]

    def message(self):
        """The text of the rule and its remedy. The types of the parts come here, once the library explains them."""
        lines = [cause(self.broken), *(f"{word}: {text}" for word, text in self.broken.advised[1:])]
        if self.other:
            lines[1:] = [f"because: {name_of(self.other[0].uri)} is refused"]
        if self.found.names:
            lines.insert(1, f"{NAMED.get(self.broken.rule, 'names')}: {', '.join(self.found.names)}")
        return "\n".join(filter(None, lines)) or self.found.rule

    def related(self):
        """Other places: the part that breaks the rule, definitions that are named, the break of a contract that is called. Each a document, a
        range and a text."""
        names_definitions = self.broken.rule in ("F5", "C11", "O1")
        definitions = outline(self.document.text).contract.definitions if names_definitions else {}
        start, end = self.broken.start, self.broken.end
        if self.broken.label:
            yield self.document, self.document.range(start, end), self.broken.label.strip()
        form = definitions.get(self.document.text[start:end])
        if form and not form.start <= start < form.end:
            yield self.document, self.document.range(form.start, form.end), "it is defined here"
        for name in self.found.names if self.broken.rule == "O1" else ():
            if name in definitions:
                yield self.document, self.document.range(definitions[name].start, definitions[name].end), f"{name} is of the ring"
        if self.other:
            document, found = self.other
            rule = found.rule.split(" ")[0]
            text = next((text for word, text in advice.of_rules().get(rule, []) if word == "broken"), "")
            yield document, document.range(found.span.start, found.span.stop), f"{found.rule}: {text}"
