"""What the language server answers about a place of a source: hover, definition, references, completion, symbols and remedies."""
import re

import advice
import remedies
from items import FUNCTIONS
from meanings import DEFINED_FIRST, GIVEN_FIRST, OWN_CONTRACT, Meaning, outline
from report_reader import DIMENSIONS
from workspace import name_of

KINDS = {"define-public": "public function", "define-read-only": "read-only function", "define-private": "private function",
         "define-constant": "constant", "define-data-var": "variable", "define-map": "map", "define-fungible-token": "fungible token",
         "define-non-fungible-token": "non-fungible token"}  # fmt: skip
# The kinds of the protocol, of symbols and of completion items.
SYMBOLS = {"define-constant": 14, "define-data-var": 13, "define-map": 19, "define-fungible-token": 5, "define-non-fungible-token": 5}
ITEMS = {"define-constant": 21, "define-data-var": 6, "define-map": 22, "define-fungible-token": 7, "define-non-fungible-token": 7}
FUNCTION_SYMBOL, FUNCTION_ITEM, VARIABLE_ITEM, KEYWORD_ITEM, MODULE_ITEM = 12, 3, 6, 14, 9
CALLED = ("define-public", "define-read-only")
TYPES = ("int", "uint", "bool", "principal", "buff", "string-ascii", "string-utf8", "list", "tuple", "optional", "response")
# A hover shows so much of a definition.
MOST_SHOWN = 400


def code(text):
    return f"```clarity\n{text if len(text) <= MOST_SHOWN else text[:MOST_SHOWN] + ' ..'}\n```"


def markdown(parts):
    return {"kind": "markdown", "value": "\n\n".join(filter(None, parts))}


def row(name):
    """What the language's lists say of a native, as Markdown."""
    found = advice.natives()[name]
    return markdown(["Of version 2." if found.is_of_version_2 else "", *found.items, f"*{found.heading}*"])


def is_keyword(name):
    return advice.natives()[name].heading == "Literals and names"


def comment_above(text, form):
    """The comment on the lines right above a definition."""
    lines = text[: form.start].split("\n")[:-1] if text[: form.start].endswith("\n") else []
    found = []
    while lines and lines[-1].lstrip().startswith(";;"):
        found.insert(0, lines.pop().strip().lstrip("; "))
    return "  \n".join(found)


class Answers:
    """Answers over the sources of a workspace. `verdict` gives the verdict on a document, or nothing where there is no library yet."""

    def __init__(self, workspace, verdict, judge):
        self.workspace, self.verdict, self.judge = workspace, verdict, judge

    def meaning(self, document, at):
        """The outline of a document, the item at a place, and what it means."""
        shown = outline(document.text)
        path = shown.path(at)
        return shown, path[-1] if path else None, shown.meaning(path)

    def defined(self, document, meaning):
        """The document and what a name means there: the same, but for a function of another contract."""
        if meaning.kind not in ("function", "contract"):
            return document, meaning
        own = name_of(document.uri)
        name = meaning.contract or meaning.name
        other = document if name == own else self.workspace.find(name, document.uri)
        if other is None or meaning.kind == "contract":
            return other, meaning
        contract = outline(other.text).contract
        form = contract.definitions.get(meaning.name)
        return other, Meaning(form.head(), meaning.name, contract.name_of(form), form) if form else None

    # Hover.

    def hover(self, document, at):
        _, item, meaning = self.meaning(document, at)
        if not meaning:
            return None
        parts = self.hovered(document, meaning)
        return {"contents": parts, "range": document.range(item.start, item.end)} if parts else None

    def hovered(self, document, meaning):
        if meaning.kind == "native":
            return row(meaning.name)
        place, found = self.defined(document, meaning)
        if meaning.kind == "contract":
            return markdown([f"`{meaning.name}`: the contract of {place.uri}" if place else f"No file {meaning.name}.clar is there."])
        if place is None or found is None:
            return markdown([f"No function `{meaning.name}` of `{meaning.contract}` is there."])
        shown = outline(place.text)
        if found.kind in KINDS:
            return markdown(self.of_definition(place, shown, found))
        if found.kind == "parameter":
            return markdown([code(f"{found.name} {shown.piece(found.given)}"), "parameter"])
        bound = code(f"{found.name} {shown.piece(found.given)}") if found.given else code(found.name)
        return markdown([bound, f"bound by `{found.kind}`"])

    def of_definition(self, document, shown, found):
        """What is said of a definition: of a function its type and bound."""
        kind, comment = KINDS[found.kind], comment_above(shown.text, found.given)
        if found.kind not in FUNCTIONS:
            return [code(shown.signature(found.given)), kind, comment]
        verdict = self.verdict(document)
        signature, bound = shown.signature(found.given), ""
        if verdict and verdict.broken:
            bound = f"No bound: the contract is refused ({verdict.found.rule})."
        elif verdict:
            five, returned = self.judge().bounds(verdict.source, verdict.before).get(found.name, (None, None))
            signature += f" -> {returned}" if returned else ""
            bound = "A call costs at most " + ", ".join(f"{name} {number}" for name, number in zip(DIMENSIONS, five)) + "." if five else ""
        return [code(signature), kind, bound, comment]

    # Places.

    def definition(self, document, at):
        _, _, meaning = self.meaning(document, at)
        place, found = self.defined(document, meaning) if meaning else (None, None)
        if place is None or found is None:
            return None
        if found.kind == "contract":
            return {"uri": place.uri, "range": place.range(0, 0)}
        return {"uri": place.uri, "range": place.range(found.item.start, found.item.end)} if found.item else None

    def references(self, document, at, with_definition=True):
        _, _, meaning = self.meaning(document, at)
        place, found = self.defined(document, meaning) if meaning and meaning.kind != "contract" else (None, None)
        if place is None or found is None or not found.item:
            return []
        uses = [(place, item) for item in outline(place.text).uses(found) if with_definition or item is not found.item]
        if found.kind in CALLED:
            called = Meaning("function", found.name, contract=name_of(place.uri))
            for other in self.workspace.others():
                if self.workspace.find(called.contract, other.uri) is place and b"contract-call?" in other.bytes:
                    uses += [(other, item) for item in outline(other.text).uses(called)]
        return [{"uri": one.uri, "range": one.range(item.start, item.end)} for one, item in uses]

    def highlights(self, document, at):
        return [{"range": one["range"]} for one in self.references(document, at) if one["uri"] == document.uri]

    def symbols(self, document):
        shown, found = outline(document.text), []
        for form in shown.items:
            name = shown.contract.name_of(form)
            if name and form.head() in KINDS:
                found.append({"name": name.text, "detail": shown.signature(form)[:MOST_SHOWN] if form.head() in FUNCTIONS else KINDS[form.head()],
                              "kind": SYMBOLS.get(form.head(), FUNCTION_SYMBOL), "range": document.range(form.start, form.end),
                              "selectionRange": document.range(name.start, name.end)})  # fmt: skip
        return found

    # Completion.

    def completion(self, document, at):
        shown = outline(document.text)
        line = shown.text[shown.text.rfind("\n", 0, at) + 1 : at]
        if re.match(r'(?:[^";]|;(?!;)|"(?:[^"\\]|\\.)*")*(?:;;|"(?:[^"\\]|\\.)*\Z)', line):
            # In a comment or a string.
            return []
        begin = at - len(re.search(r"[^\s(){},:\";]*\Z", line)[0])
        # A name is put where none is begun, so that it has its place among the items.
        shown = shown if begin < at else outline(shown.text[:at] + "x" + shown.text[at:])
        place = document.range(begin, at)
        return [{**item, "textEdit": {"range": place, "newText": item["label"]}} for item in self.items(document, shown, shown.path(begin))]

    def items(self, document, shown, path):
        """The names that may be written in the place of the last item of a path."""
        if not path or path[-1].text is None:
            return []
        form = path[-2] if len(path) > 1 else None
        place = form.items.index(path[-1]) if form else 0
        head = form.head() if form and place else None
        if path[-1].text[0] in ".'" or head == "contract-call?" and place == 1:
            return [{"label": f".{name}", "kind": MODULE_ITEM} for name in self.workspace.names(document.uri)]
        if head == "contract-call?" and place == 2:
            target = OWN_CONTRACT.match(form.items[1].text or "")
            other = self.workspace.find(target[1], document.uri) if target else None
            return self.definitions(outline(other.text), CALLED) if other else []
        if shown.is_type(path):
            return [{"label": word, "kind": KEYWORD_ITEM} for word in TYPES]
        if place == 1 and head in DEFINED_FIRST:
            return self.definitions(shown, DEFINED_FIRST[head])
        version = self.workspace.version_of(document)
        natives = {name: found for name, found in advice.natives().items() if not found.is_of_version_2 or version == 2}
        if place == 1 and head in GIVEN_FIRST:
            return self.definitions(shown, FUNCTIONS) + self.natives(name for name, found in natives.items() if found.is_given_by_name)
        if form and form.is_list() and place == 0:
            return self.definitions(shown, FUNCTIONS) + self.natives(name for name in natives if not is_keyword(name))
        bound = [{"label": item.text, "kind": VARIABLE_ITEM, "detail": by} for item, _, by in shown.contract.binders_above(path)]
        return bound + self.definitions(shown, ("define-constant",)) + self.natives(filter(is_keyword, natives))

    def definitions(self, shown, words):
        return [{"label": name, "kind": ITEMS.get(form.head(), FUNCTION_ITEM), "detail": shown.signature(form)[:MOST_SHOWN]}
                for name, form in shown.contract.definitions.items() if form.head() in words]  # fmt: skip

    def natives(self, names):
        return [{"label": name, "kind": KEYWORD_ITEM if is_keyword(name) else FUNCTION_ITEM,
                 "detail": advice.natives()[name].heading, "documentation": row(name)} for name in names]  # fmt: skip

    # Remedies.

    def actions(self, document, start, end):
        verdict = self.verdict(document)
        if not verdict or not verdict.broken or verdict.found.span.stop < start or verdict.found.span.start > end:
            return []
        found = remedies.of_break(verdict.broken, document.bytes, verdict.found.span)
        diagnostics = [one for one in verdict.diagnostics() if one.get("code") == verdict.found.rule]
        return [{"title": one.title, "kind": "quickfix", "diagnostics": diagnostics, "isPreferred": len(found) == 1,
                 "edit": {"changes": {document.uri: [{"range": document.range(one.start, one.end), "newText": one.new}]}}} for one in found]  # fmt: skip
