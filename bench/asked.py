"""For bench/language_server.sh: asks tools/language_server about sources, and compares its answers with what was worked out by hand. Prints
a line for each answer: `ok`, or how it differs. Its word is a folder for files."""
import importlib.machinery
import importlib.util
import io
import json
import pathlib
import random
import sys

sys.dont_write_bytecode = True
from editor import SERVER, Editor, framed  # noqa: E402

sys.path.insert(0, str(SERVER.parent))
FOLDER = pathlib.Path(sys.argv[1]).resolve()
SHOP = """\
;; A shop. \u00e9
(define-constant price u5)
(define-data-var sold uint u0)
(define-map stock {id: uint} {left: uint})
;; Sells one.
(define-public (sell (id uint))
  (let ((left (get left (unwrap! (map-get? stock {id: id}) (err u1)))))
    (match (map-get? stock {id: id})
      entry (ok (+ left (get left entry)))
      (err price))))
""".replace("\u00e9", "e")
ADD1 = "(define-read-only (add1 (x int)) (+ x 1))\n"


def same(name, shown, wanted):
    print("ok" if shown == wanted else f"differs: {name}: {json.dumps(shown)[:1200]}, wanted {json.dumps(wanted)[:1200]}".replace("\n", " "))


def uri(name):
    return (FOLDER / name).as_uri()


def at(text, piece, more=0):
    """The position of the first such piece, and so many characters on."""
    before = text[: text.index(piece) + more]
    return {"line": before.count("\n"), "character": len(before) - before.rfind("\n") - 1}


def place(text, piece, name, within=None):
    """The location of a piece; within another, of the first behind the begin of that."""
    begin = text.index(piece, text.index(within) if within else 0)
    before = text[:begin]
    start = {"line": before.count("\n"), "character": len(before) - before.rfind("\n") - 1}
    return {"uri": uri(name), "range": {"start": start, "end": {**start, "character": start["character"] + len(piece)}}}


def asked(editor, method, name, position, **more):
    return editor.ask(f"textDocument/{method}", {"textDocument": {"uri": uri(name)}, "position": position, **more})


def hovered(editor, name, position):
    found = asked(editor, "hover", name, position)
    return found and found["contents"]["value"]


def messages():
    """What isn't of the protocol, or comes at a wrong time."""
    editor = Editor(begins=False)
    same("a request before initialize", editor.ask("textDocument/hover", {})["code"], -32002)
    for raw in (b"Content-Length: 1\r\n\r\n{", b"noise\r\n\r\nContent-Length: 2\r\n\r\n[]"):
        editor.send(raw)
    codes = [editor.receive()["error"]["code"] for _ in range(2)]
    same("no JSON, and a list", codes, [-32700, -32600])
    editor.send(b"Content-Type: x\r\ncontent-length: 46\r\n\r\n" + b'{"jsonrpc": "2.0", "id": 7, "method": "other"}')
    same("a head of another case", editor.receive()["id"], 7)
    begun = editor.ask("initialize", {"capabilities": {}, "rootUri": None})
    same("initialize", begun["capabilities"]["positionEncoding"], "utf-16")
    same("initialize again", editor.ask("initialize", {})["code"], -32600)
    editor.tell("$/unknown", {})
    editor.tell("textDocument/didChange", {"textDocument": {}})
    same("an unknown method", editor.ask("textDocument/unknown", {})["code"], -32601)
    for params in (None, [], {}, {"textDocument": {"uri": 5}}, {"textDocument": {"uri": "file:///closed.clar"}, "position": {"line": 0, "character": 0}}):
        same(f"hover of {params}", editor.ask("textDocument/hover", params)["code"], -32602)
    editor.open("untitled:a", ADD1)
    for position in (None, {}, {"line": -1, "character": 0}, {"line": "0", "character": 0}):
        same(f"hover at {position}", editor.ask("textDocument/hover", {"textDocument": {"uri": "untitled:a"}, "position": position})["code"], -32602)
    same("behind the end", editor.ask("textDocument/hover", {"textDocument": {"uri": "untitled:a"}, "position": {"line": 9, "character": 9}}), None)
    same("shutdown", editor.ask("shutdown", None), None)
    same("a request behind shutdown", editor.ask("textDocument/hover", {})["code"], -32600)
    editor.tell("exit", None)
    same("exit", editor.server.wait(30), 0)
    early = Editor()
    early.tell("exit", None)
    same("exit without shutdown", early.server.wait(30), 1)
    ended = Editor()
    ended.server.stdin.close()
    same("the end of the input", ended.server.wait(30), 1)


def cancelled():
    """A request that is cancelled while it waits. The server is in this process, so that the order is known."""
    loader = importlib.machinery.SourceFileLoader("language_server", str(SERVER))
    module = importlib.util.module_from_spec(importlib.util.spec_from_loader("language_server", loader))
    loader.exec_module(module)
    given = [{"id": 1, "method": "initialize", "params": {}}, {"id": 2, "method": "textDocument/unknown"}, {"id": 3, "method": "textDocument/unknown"},
             {"method": "$/cancelRequest", "params": {"id": 2}}, {"method": "$/cancelRequest", "params": {"id": [2]}}]  # fmt: skip
    out = io.BytesIO()
    server = module.Server(io.BytesIO(b"".join(map(framed, given))), out)
    server.find_library = lambda: None
    server.listen()
    try:
        server.serve()
    except module.Ended as ended:
        same("the end", ended.args[0], 1)
    answers = [json.loads(part.partition("\r\n\r\n")[2]) for part in out.getvalue().decode().split("Content-Length: ")[1:]]
    same("cancel", {one["id"]: one["error"]["code"] for one in answers if "error" in one}, {2: -32800, 3: -32601})


def changed():
    """Texts after changes, by UTF-16 units: some by hand, and some drawn, against lists of units."""
    from documents import Document

    document = Document("untitled:a", "a\r\nb\u00e9\U0001f600c\n")
    for start, end, new, wanted in (
        ((1, 1), (1, 2), "x", "a\r\nbx\U0001f600c\n"), ((1, 2), (1, 4), "", "a\r\nbxc\n"), ((0, 9), (1, 0), "", "abxc\n"), ((5, 0), (9, 9), "d", "abxc\nd"),
        ((0, 0), (1, 1), "\u00e9\r\U0001f600", "\u00e9\r\U0001f600"), ((1, 1), (1, 1), "z", "\u00e9\rz\U0001f600"), ((1, 1), (1, 3), "", "\u00e9\rz"),
    ):  # fmt: skip
        document.change({"range": {"start": dict(zip(("line", "character"), start)), "end": dict(zip(("line", "character"), end))}, "text": new})
        same(f"{start} to {end}", document.bytes.decode(), wanted)
    document.change({"text": "whole"})
    same("a whole text", document.bytes, b"whole")
    draws = random.Random(7)
    for _ in range(300):
        text = "".join(draws.choice("ab\u00e9\u20ac\U0001f600\n\r") for _ in range(draws.randrange(12)))
        document = Document("untitled:a", text)
        place = draws.randrange(len(text) + 1)
        lines = text[:place].replace("\r\n", "\n").replace("\r", "\n").split("\n")
        column = sum(1 + (c > "\uffff") for c in lines[-1])
        inside = text[place - 1 : place + 1] == "\r\n"
        offset = len(text[:place].encode())
        if not inside:
            same(f"{text!r} at {place}", document.position(offset), {"line": len(lines) - 1, "character": column})
            same(f"back in {text!r} at {place}", document.offset({"line": len(lines) - 1, "character": column}), offset)


def diagnosed():
    """Diagnostics of contracts that call each other, and of versions."""
    editor = Editor(FOLDER)
    (FOLDER / "kept.clar").write_text("(define-public (f) 1)")
    user = "(define-public (g) (contract-call? .kept f))"
    editor.open(uri("user.clar"), user)
    one = editor.diagnostics(uri("user.clar"))[0]
    same("a call of a refused contract", (one["code"], one["message"].split("\n")[1]), ("C16 NoSuchContract", "because: kept is refused"))
    same("its place", one["relatedInformation"][0]["location"], place("(define-public (f) 1)", "(define-public (f) 1)", "kept.clar"))
    editor.open(uri("kept.clar"), "(define-public (f) 1)")
    same("the refused contract", [one["code"] for one in editor.diagnostics(uri("kept.clar"))], ["C9 NotResponse"])
    editor.tell("textDocument/didChange", {"textDocument": {"uri": uri("kept.clar"), "version": 2}, "contentChanges": [
        {"range": {"start": {"line": 0, "character": 19}, "end": {"line": 0, "character": 20}}, "text": "(ok 1)"}]})  # fmt: skip
    same("it is mended", editor.diagnostics(uri("kept.clar"), 2), [])
    same("and its caller with it", editor.diagnostics(uri("user.clar")), [])
    editor.close(uri("kept.clar"))
    same("it is closed: the file counts", [one["code"] for one in editor.diagnostics(uri("user.clar"))], ["C16 NoSuchContract"])
    # What is deployed aborts; what is checked alone doesn't.
    (FOLDER / "kept.clar").write_text("(define-public (f) (ok 1))(unwrap-panic (if (is-eq 1 1) none (some 1)))")
    editor.tell("workspace/didChangeWatchedFiles", {"changes": []})
    same("a contract whose deployment aborts", editor.diagnostics(uri("user.clar")), [])
    versions(editor)
    same("the end", editor.end(), 0)


def versions(editor):
    text = "(define-read-only (f) (bit-and u1 u3))"
    for number, (head, codes) in enumerate([("", ["C1 UnknownName"]), (";; clarity-version: 2\n", []), ("\n;; x\n;; clarity-version: 1\n", ["C1 UnknownName"]),
                                            (";; clarity-version: 3\n", [None, "C1 UnknownName"]), ("(f) ;; clarity-version: 2\n", ["C1 UnknownName"])]):  # fmt: skip
        editor.open(uri("two.clar"), head + text, number)
        same(f"version {head!r}", [one.get("code") for one in editor.diagnostics(uri("two.clar"), number)], codes)
        editor.close(uri("two.clar"))
    editor.open(uri("two.clar"), text, 10)
    said = editor.diagnostics(uri("two.clar"), 10)[0]["message"].split("\n")
    same("version 2 is advised", said, ["bit-and: of version 2 alone", 'instead: --clarity2 or "clarity": 2'])
    editor.tell("workspace/didChangeConfiguration", {"settings": {"clarity": {"version": 2}}})
    same("the setting", editor.diagnostics(uri("two.clar"), 10), [])
    # A contract of version 1 that calls one of version 2.
    editor.open(uri("one.clar"), ";; clarity-version: 1\n(define-read-only (g) (contract-call? .two f))", 11)
    same("two versions", editor.diagnostics(uri("one.clar"), 11), [])
    same("the bound of one", hovered(editor, "one.clar", {"line": 1, "character": 20}) is not None, True)
    editor.open(uri("ring.clar"), "(define-private (a) (b))\n(define-private (b) (a))", 12)
    ring = editor.diagnostics(uri("ring.clar"), 12)[0]
    same("a ring", (ring["message"].split("\n")[1], [one["message"] for one in ring["relatedInformation"]]), ("ring: a, b", ["a is of the ring", "b is of the ring"]))
    used = "(define-constant a 1)\n(define-constant a 2)"
    editor.open(uri("used.clar"), used, 13)
    found = editor.diagnostics(uri("used.clar"), 13)[0]
    same("a name twice", [(one["message"], one["location"]["range"]["start"]) for one in found["relatedInformation"]],
         [("this name", {"line": 1, "character": 17}), ("it is defined here", {"line": 0, "character": 0})])  # fmt: skip


def places():
    """Hover, definitions, references and symbols."""
    editor = Editor(FOLDER)
    editor.open(uri("inc.clar"), ADD1)
    editor.open(uri("shop.clar"), SHOP)
    same("shop", editor.diagnostics(uri("shop.clar")), [])
    wanted = "```clarity\n(add1 (x int)) -> int\n```\n\nread-only function\n\nA call costs at most runtime 5, read_count 0, read_length 0, write_count 0, write_length 0."
    same("a function", hovered(editor, "inc.clar", at(ADD1, "add1")), wanted)
    sell = hovered(editor, "shop.clar", at(SHOP, "sell"))
    same("its type and comment", (sell.split("\n")[1], sell.split("\n\n")[-1]), ("(sell (id uint)) -> (response uint uint)", "Sells one."))
    same("a native", hovered(editor, "shop.clar", at(SHOP, "unwrap!")).split(":")[0], "`unwrap!`")
    same("match has two rows", hovered(editor, "shop.clar", at(SHOP, "match")).count("`match`"), 2)
    for piece, more, text in (("(err price", 5, "```clarity\n(define-constant price u5)\n```\n\nconstant\n\nA shop. e"), ("? stock", 2,
                              "```clarity\n(define-map stock {id: uint} {left: uint})\n```\n\nmap"), ("{id: id", 5, "```clarity\nid uint\n```\n\nparameter"),
                              ("+ left", 2, "```clarity\nleft (get left (unwrap! (map-get? stock {id: id}) (err u1)))\n```\n\nbound by `let`"),
                              ("left entry", 5, "```clarity\nentry\n```\n\nbound by `match`"), ("get left", 4, None), ("u5", 0, None), ("A shop", 0, None)):  # fmt: skip
        same(f"hover {piece}", hovered(editor, "shop.clar", at(SHOP, piece, more)), text)
    for piece, more, target, within in (("(err price", 5, "price", None), ("? stock", 2, "stock", None), ("{id: id", 5, "id", "(id uint"), ("+ left", 2, "left", "((left"),
                                        ("left entry", 5, "entry", None), ("sell", 0, "sell", None)):  # fmt: skip
        same(f"definition {piece}", asked(editor, "definition", "shop.clar", at(SHOP, piece, more)), place(SHOP, target, "shop.clar", within))
    same("no definition", asked(editor, "definition", "shop.clar", at(SHOP, "match")), None)
    symbols = editor.ask("textDocument/documentSymbol", {"textDocument": {"uri": uri("shop.clar")}})
    same("symbols", [(one["name"], one["kind"], one["detail"]) for one in symbols],
         [("price", 14, "constant"), ("sold", 13, "variable"), ("stock", 19, "map"), ("sell", 12, "(sell (id uint))")])  # fmt: skip
    pair = "(define-private (f (k uint)) (tuple (k k)))"
    editor.open(uri("pair.clar"), pair)
    same("a key", hovered(editor, "pair.clar", at(pair, "(k k)", 1)), None)
    same("a value", hovered(editor, "pair.clar", at(pair, "(k k)", 3)), "```clarity\nk uint\n```\n\nparameter")
    others(editor)
    same("the end", editor.end(), 0)


def others(editor):
    """Functions of another contract."""
    user = "(define-public (one) (contract-call? .shop sell u1))\n(define-public (two) (contract-call? .shop sell u2))\n"
    editor.open(uri("buyer.clar"), user)
    same("the function of another contract", asked(editor, "definition", "buyer.clar", at(user, "sell")), place(SHOP, "sell", "shop.clar"))
    same("its type", hovered(editor, "buyer.clar", at(user, "sell")).split("\n")[1], "(sell (id uint)) -> (response uint uint)")
    same("another contract", asked(editor, "definition", "buyer.clar", at(user, ".shop"))["uri"], uri("shop.clar"))
    calls = [place(user, "sell", "buyer.clar", "(one"), place(user, "sell", "buyer.clar", "(two")]
    for name, text in (("shop.clar", SHOP), ("buyer.clar", user)):
        found = asked(editor, "references", name, at(text, "sell"), context={"includeDeclaration": True})
        same(f"references from {name}", found, [place(SHOP, "sell", "shop.clar"), *calls])
    same("calls alone", asked(editor, "references", "shop.clar", at(SHOP, "sell"), context={"includeDeclaration": False}), calls)
    lefts = [place(SHOP, "left", "shop.clar", "((left"), place(SHOP, "left", "shop.clar", "+ left")]
    same("a bound name", asked(editor, "references", "shop.clar", at(SHOP, "+ left", 2), context={}), lefts)
    same("highlights", asked(editor, "documentHighlight", "shop.clar", at(SHOP, "+ left", 2)), [{"range": one["range"]} for one in lefts])


def completed():
    """The names that complete what is written, where `|` is the place."""
    editor = Editor(FOLDER)
    editor.open(uri("shop.clar"), SHOP)
    for number, (text, names, none) in enumerate([
        ("(|", ["map-get?", "sell-all", "define-public"], ["slice?", "true", "fee"]), ("(ma|", ["map-get?", "match"], []), ("(+ u1 |", ["fee", "tx-sender"], ["map-get?"]),
        ("(var-get |", ["total"], ["fee", "rows"]), ("(map-set ro|", ["rows"], ["total"]), ("(ft-mint? |", ["coin"], ["item"]), ("(nft-mint? |", ["item"], ["coin"]),
        ("(contract-call? .|", [".shop"], ["fee"]), ("(contract-call? .shop |", ["sell"], ["price"]), ("(fold |", ["sell-all", "+"], ["map-get?"]),
        ("(define-data-var n |", ["uint", "string-ascii"], ["fee"]), ("(define-private (f (arg uint)) (let ((b arg)) (+ |", ["arg", "b", "fee"], ["total"]),
        (";; (|", [], ["map-get?"]), ('"(|', [], ["map-get?"]),
    ]):  # fmt: skip
        head = "(define-constant fee u1)\n(define-data-var total uint u0)\n(define-map rows uint uint)\n(define-fungible-token coin)\n" \
               "(define-non-fungible-token item uint)\n(define-private (sell-all) true)\n"  # fmt: skip
        whole = head + text.replace("|", "") + "\n(define-constant after u2)\n"
        editor.open(uri("write.clar"), whole, number)
        found = asked(editor, "completion", "write.clar", at(head + text, text, text.index("|")))
        labels = {one["label"] for one in found}
        same(f"completion {text}", [name for name in names if name not in labels] + [name for name in none if name in labels], [])
        same(f"all of {text}", "after" in labels, bool(labels & {"fee"}))
        editor.close(uri("write.clar"))
    editor.open(uri("write.clar"), ";; clarity-version: 2\n(sl", 99)
    slices = [one for one in asked(editor, "completion", "write.clar", {"line": 1, "character": 3}) if one["label"] == "slice?"]
    same("version 2", [(one["textEdit"], one["documentation"]["value"].split("\n")[0]) for one in slices],
         [({"range": {"start": {"line": 1, "character": 1}, "end": {"line": 1, "character": 3}}, "newText": "slice?"}, "Of version 2.")])  # fmt: skip
    same("the end", editor.end(), 0)


def edited(text, edits):
    """A text of one byte a character after edits of one change."""
    for edit in sorted(edits, key=lambda edit: (edit["range"]["start"]["line"], edit["range"]["start"]["character"]), reverse=True):
        lines = text.split("\n")
        start, end = (sum(len(line) + 1 for line in lines[: edge["line"]]) + edge["character"] for edge in (edit["range"]["start"], edit["range"]["end"]))
        text = text[:start] + edit["newText"] + text[end:]
    return text


def mended():
    """Quick fixes: the titles, and the text after each."""
    editor = Editor(FOLDER)
    digest = "(define-read-only (f) ({} 0x00))"
    for number, (text, piece, wanted) in enumerate([
        ("(define-read-only (f) (unwarp-panic (some 1)))", "unwarp", [("Write unwrap-panic", "(define-read-only (f) (unwrap-panic (some 1)))")]),
        ("(impl-trait .x)\n(define-constant a 1)", "impl", [("Leave out impl-trait", "(define-constant a 1)")]),
        ("(impl-trait 'SP3FBR2AGK5H9QBDH3EEN6DF8EK8JY7RX8QJ5SVTE.a.b)\n(define-constant a 1)", "'SP3", [("Leave out impl-trait", "(define-constant a 1)")]),
        (digest.format("keccak256"), "kec", [(f"Write {one} in place of keccak256", digest.format(one)) for one in ("sha256", "sha512", "sha512/256")]),
        ("(define-read-only (f) burn-block-height)", "burn", [("Write block-height in place of burn-block-height", "(define-read-only (f) block-height)")]),
        ("(define-read-only (f) (slice? 0x00 u0 u1))", "slice",
         [("Make it a contract of version 2", ";; clarity-version: 2\n(define-read-only (f) (slice? 0x00 u0 u1))")]),
        (";; clarity-version: 1\n(define-read-only (f) (index-of? 0x00 0x00))", "index",
         [("Make it a contract of version 2", ";; clarity-version: 2\n(define-read-only (f) (index-of? 0x00 0x00))"),
          ("Write index-of in place of index-of?", ";; clarity-version: 1\n(define-read-only (f) (index-of 0x00 0x00))")]),
        ("(define-constant a SP000000000000000000002Q6VF78)", "SP",
         [("Write 'SP000000000000000000002Q6VF78", "(define-constant a 'SP000000000000000000002Q6VF78)")]),
        ("(define-constant a ((k 1) (v (+ 1 2))))", "((k", [("Write it as { }", "(define-constant a {k: 1, v: (+ 1 2)})")]),
        ("(define-map m ((k uint)) uint)", "((k", [("Write it as { }", "(define-map m {k: uint} uint)")]),
        ('(define-constant a u"\u00e9-\u20ac")', "\u00e9", [("Write the characters beyond ASCII by escapes", '(define-constant a u"\\u{e9}-\\u{20ac}")')]),
        (";; \u00e9\n(define-constant a 1)", "\u00e9", []), ("(define-constant a (+ 1 u1))", "u1", []),
    ]):  # fmt: skip
        editor.open(uri("mend.clar"), text, number)
        editor.diagnostics(uri("mend.clar"), number)
        position = at(text, piece)
        found = editor.ask("textDocument/codeAction", {"textDocument": {"uri": uri("mend.clar")}, "range": {"start": position, "end": position},
                                                       "context": {"diagnostics": []}})  # fmt: skip
        same(f"remedies of {text}", [(one["title"], edited(text, one["edit"]["changes"][uri("mend.clar")])) for one in found], wanted)
        editor.close(uri("mend.clar"))
    same("the end", editor.end(), 0)


for test in (messages, cancelled, changed, diagnosed, places, completed, mended):
    test()
