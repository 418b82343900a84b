"""What the text of a source says of a rule that it breaks: the part that does, and what to write instead."""
import difflib
import re

import advice
import sources
import values
from items import FUNCTIONS, items_of, path_to, seconds

# Where a list has the name that isn't known, by the rule, and the words that define such names.
UNKNOWN = {"C1": (0, FUNCTIONS), "C12": (1, ()), "C13": (1, ("define-data-var",)), "C14": (1, ("define-map",)),
           "C15": (1, ("define-fungible-token", "define-non-fungible-token")), "C18": (1, FUNCTIONS)}  # fmt: skip
KEY = re.compile(r"[{,]\s*([A-Za-z][A-Za-z0-9_!?+<>=/*-]*)\s*:")
# How near a name has to be, of 1, to be asked for.
NEAR = 0.7
FINDERS = {"C3": (sources.wrong_argument, "this argument"), "C10": (sources.unused_response, "this response is unused"),
           "F5": (sources.used_name, "this name"), "C11": (sources.shadowed_name, "this name")}  # fmt: skip


class Break:
    """A rule that a source breaks: the part of the span that does, as far as the text says it, what it is called, and what is said of
    the rule, each a word and a text; the first says what breaks it. `near` has an item that is no name, and the name that may be meant.
    `helps_version_2` says whether that version may help."""

    def __init__(self, refusal, source, helps_version_2):
        self.rule, self.name = refusal["rule"], refusal["name"]
        text, start, end = source.decode("latin-1"), int(refusal["start"]), min(int(refusal["end"]), len(source))
        self.start, self.end, self.label = narrowed(self.rule, text, start, end)
        self.advised, self.near = said(self.rule, text, start, end), None
        if not self.advised:
            self.advised = advice.of_rules().get(self.rule, [])
            # Of a comparison whose arguments agree, as two strings, none is wrong by itself.
            missing = advice.of_missing(self.rule, piece_of(self.rule, text, start, end)) if not self.label else []
            near = near_name(self.rule, text, start, end)
            if missing and (not advice.is_of_version_2(missing) or helps_version_2()):
                self.advised = missing
            elif near:
                self.near = near
                self.advised = [*self.advised[:1], ("did you mean", f"{near[1]}?"), *self.advised[1:]]


def narrowed(rule, text, start, end):
    """The span within a span that breaks the rule, as far as the text says it, and what it is called."""
    items = items_of(text) if rule in FINDERS or rule == "F2" else None
    path = path_to(items, start, end)
    if not path or not path[-1].is_list() or len(path[-1].items) < 2:
        return start, end, ""
    if rule == "F2":
        item, label = next(filter(None, map(without_length, types_of(path[-1]))), None), "this type"
    else:
        find, label = FINDERS[rule]
        more = (advice.reserved(),) if rule == "C11" else ()
        item = find(sources.Contract(items), path, *more)
    return (item.start, item.end, " " + label) if item is not None else (start, end, "")


def piece_of(rule, text, start, end):
    """The text of a span; of a definition with a bad type that of its types."""
    path = path_to(items_of(text), start, end) if rule == "F2" else []
    return " ".join(text[item.start : item.end] for item in types_of(path[-1])) if path else text[start:end]


def types_of(item):
    """The types that a definition states."""
    parts = item.items or []
    if item.head() in FUNCTIONS:
        return seconds([pair for head in parts[1:2] for pair in head.items or []])
    places = {"define-map": (2, 4), "define-data-var": (2, 3), "define-non-fungible-token": (2, 3)}
    return parts[slice(*places.get(item.head(), (0, 0)))]


def without_length(item):
    """The first part of a type that lacks its greatest length, or nothing."""
    word, parts = item.text or item.head(), item.items or []
    if word in ("buff", "string-ascii", "string-utf8") and len(parts) != 2 or word == "list" and len(parts) != 3:
        return item
    inner = seconds(parts[1:]) if word == "tuple" else parts[1:] if item.is_list() else parts
    return next(filter(None, map(without_length, inner)), None)


def said(rule, text, start, end):
    """What is said of a break in place of its rule's texts, where the text says more."""
    piece = text[start:end]
    word = re.match(r"\(?\s*([^\s(){},:\";]*)", piece)[1]
    if rule == "T1" and text.startswith("\xef\xbb\xbf") and start == 0:
        return [("broken", "the file begins with a byte order mark"), ("mended", "save it as ASCII, or as UTF-8 without the mark")]
    line = re.search(r"\(\s*(impl-trait|use-trait)\s[^()]*\Z", text[:start])
    if rule in ("T2", "T9") and line:
        return advice.of_missing("F4", line[1])
    if rule in ("T2", "C1") and values.is_principal(word):
        return [("broken", f"{word}: a principal is written with a ' in front"), ("mended", f"write '{word}")]
    path = path_to(items_of(text), start, end) if rule == "F2" else []
    if path and any(map(without_length, types_of(path[-1]))):
        return [("broken", "a type states no greatest length"), ("mended", "write it, as in (list 10 uint), (buff 32) or (string-ascii 20)")]
    return []


def near_name(rule, text, start, end):
    """The item that is no known name, and the name that may be meant, or nothing."""
    items = items_of(text) if rule in UNKNOWN else None
    path = path_to(items, start, end)
    if not path:
        return None
    item, contract, (place, words) = path[-1], sources.Contract(items), UNKNOWN[rule]
    if item.is_list() and place >= len(item.items):
        return None
    item = item.items[place] if item.is_list() else item
    if rule == "C1" and item is path[-1]:
        words, more = ("define-constant",), [*sources.KEYWORDS, *contract.bound_above(path)]
    else:
        more = advice.natives() if rule in ("C1", "C18") else KEY.findall(text) if rule == "C12" else []
    known = [one for one, form in contract.definitions.items() if form.head() in words]
    near = difflib.get_close_matches(item.text or "", filter(None, [*known, *more]), 1, NEAR)
    return (item, near[0]) if near else None


def are_texts(text, start, end):
    """Whether an argument of an expression is known to be a buffer or a string."""
    items = items_of(text)
    path = path_to(items, start, end)
    if not path or not path[-1].is_list():
        return False
    contract = sources.Contract(items)
    bound = contract.bound_above(path)
    return any(contract.kind(argument, bound) in sources.TEXTS for argument in path[-1].items[1:])
