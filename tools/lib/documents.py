"""The documents of the tests, those of tools/measure/program, and one of tools/test/fuzz. Each of
tools/measure/program is heavy in one thing. A part of 1 is its whole size, and the same part gives
the same bytes."""
import glob
import json
import os
import random

from words import ROOT, bytes_at, text_at, write_at

DATA = f"{ROOT}/crates/msg_documents/data"
# the worked image of the tests: Root, Child, Grand, Side and Proxy
IMAGE = f"{DATA}/answers/messages_are_forwarded.json"
MOST_BYTES, SMALL = 16_777_216, 20_000


def texts(beside=".json"):
    """The documents of tests and examples that have such a file beside them, by their paths."""
    paths = sorted(glob.glob(f"{DATA}/*/*.json"))
    return {path: bytes_at(path) for path in paths if os.path.exists(path[:-5] + beside)}


def small(known):
    """Those that are edited at random."""
    return [text for text in known.values() if len(text) < SMALL]


def document(classes, objects, imps, items):
    """A document, of classes, pairs of an object and its class, implementations and items."""
    objects = [{"name": name, "class": of} for name, of in objects]
    return {"version": 1, "classes": classes, "categories": [], "objects": objects, "imps": imps,
            "items": items}


def class_(name, above, methods=()):
    return {"name": name, "super": above, "methods": list(methods), "class_methods": []}


def imp(name, args, body):
    return {"name": name, "class": "Root", "meta": False, "args": args, "body": body}


def send(name, selector, *values):
    return {"send": [["obj", name], selector, *values]}


def worked(items):
    return dict(json.loads(text_at(IMAGE)), items=items)


def worked_imps(names):
    return [it for it in worked([])["imps"] if it["name"] in names]


def sum_over(parts):
    middle = len(parts) // 2
    return ["add", sum_over(parts[:middle]), sum_over(parts[middle:])] if middle else parts[0]


def parse_heavy(many, dice):
    """13 MB: 4,096 bodies of 255 expressions, of which one is used."""
    def leaf():
        numbers = [dice.randrange(10**17, 9 * 10**17) for _ in range(6)]
        return dice.choice([["arg", 0], ["arg", 1], *numbers])

    classes, items = [class_("Root", None, [["m::", "i0000"]])], [send("r", "m::", 1, 2)]
    bodies = (sum_over([leaf() for _ in range(128)]) if at else 1 for at in range(many(4096)))
    imps = [imp(f"i{at:04d}", 2, body) for at, body in enumerate(bodies)]
    return document(classes, [("r", "Root")], imps, items * many(2000))


def send_heavy(many, _dice):
    """60,000 sends to a body that adds numbers."""
    body = ["add", ["add", ["arg", 0], ["mul", ["arg", 1], 3]], ["sub", 100, ["arg", 0]]]
    classes = [class_("Root", None, [["sum:with:", "i_sum"]]), class_("Child", "Root")]
    items = [send("c", "sum:with:", at, at * 7) for at in range(many(60_000))]
    return document(classes, [("c", "Child")], [imp("i_sum", 2, body)], items)


def eval_heavy(many, dice):
    """20,000 sends of one body of 255 expressions."""
    body = sum_over([dice.choice([["arg", 0], 3]) for _ in range(128)])
    classes = [class_("Root", None, [["big:", "i_big"]])]
    items = [send("c", "big:", at) for at in range(many(20_000))]
    return document(classes, [("c", "Root")], [imp("i_big", 1, body)], items)


def lookup_heavy(many, _dice):
    """1,000 sends of 10,000 lookups, in a chain of three classes."""
    return worked([send("g", "top")] * many(1000))


def lookup_deep(many, _dice):
    """The same below 40 classes of 24 methods."""
    classes = [class_("Root", None, [["spread:", "r_spread"], ["top", "r_top"]])]
    for at in range(40):
        methods = [[f"d{at}_{one}", "one"] for one in range(24)]
        classes.append(class_(f"D{at}", classes[-1]["name"], methods))
    imps = worked_imps(("r_spread", "r_top")) + [imp("one", 0, 1)]
    return document(classes, [("g", "D39")], imps, [send("g", "top")] * many(1000))


def lookup_poly(many, dice):
    """Bodies that send 64 selectors to objects of 32 classes: some 4,100 lookups a send."""
    groups = range(16)
    methods = [[f"s{at}", f"b{at}"] for at in range(64)] + [[f"g{at}", f"ig{at}"] for at in groups]
    classes = [class_("Root", None, [*methods, ["all:", "i_all"]])]
    for at in range(32):
        own = [[f"s{one}", f"b{(one * 7 + at) % 64}"] for one in dice.sample(range(64), 12)]
        classes.append(class_(f"P{at}", classes[dice.randrange(len(classes))]["name"], own))
    imps = [imp(f"b{at}", 0, at) for at in range(64)]
    for at in groups:
        pairs = [(dice.randrange(32), dice.randrange(64)) for _ in range(63)]
        sends = [["send", ["obj", f"o{to}"], f"s{what}"] for to, what in pairs]
        imps.append(imp(f"ig{at}", 0, sum_over(sends)))
    again = ["send", ["self"], "all:", ["sub", ["arg", 0], 1]]
    sends = [["send", ["self"], f"g{at}"] for at in groups]
    imps.append(imp("i_all", 1, ["if", ["arg", 0], sum_over([*sends, again]), 0]))
    objects = [(f"o{at}", f"P{at}") for at in range(32)]
    items = [send(f"o{at % 32}", "all:", 4) for at in range(many(1000))]
    return document(classes, objects, imps, items)


def change_heavy(many, _dice):
    """30,000 changes, a send after each."""
    items = []
    for at in range(many(15_000)):
        new = "r_name" if at % 2 else "r_value"
        items += [{"change": ["replace", "Child", False, "name", new]}, send("g", "name")]
        exchange = ["exchange", "Root", False, "value", "Root", False, "name"]
        items += [{"change": exchange}, send("s", "value")]
    return worked(items)


def forward_heavy(many, _dice):
    """60,000 sends that are forwarded."""
    return worked([send("p", "value")] * many(60_000))


def workers(many, _dice):
    """2,048 sends of some 5,000 lookups, for several threads."""
    return worked([send("g", "spread:", 11)] * many(2048))


def beside(many, dice):
    """54,000 sends of 127 lookups to 32 classes, and a change after each sixth."""
    name, items = ["name", "r_name"], []
    classes = [class_("Root", None, [["spread:", "r_spread"], ["value", "r_value"], name])]
    for at in range(32):
        above = classes[dice.randrange(len(classes))]["name"]
        classes.append(class_(f"B{at}", above, [] if at % 3 else [name]))
    for _ in range(many(9000)):
        items += [send(f"b{dice.randrange(32)}", "spread:", 6) for _ in range(6)]
        title, new = f"B{dice.randrange(32)}", dice.choice(("r_name", "r_value"))
        items.append({"change": ["replace", title, False, "name", new]})
    objects = [(f"b{at}", f"B{at}") for at in range(32)]
    return document(classes, objects, worked_imps(("r_value", "r_name", "r_spread")), items)


# how the answers of the next document end, with the lookup behind the last
END_AT_THE_LIMIT = b"""refused at 1: limit
ok
refused: limit
refused: method present
refused: limit
1
  -[Root m] found in Root: imps[0]
  lookups: 1, changes before: 65536
"""


def at_the_limit_of_changes():
    """65,535 changes, all but one in lists of two. The next that is made reaches the limit."""
    one = ["set", "Root", False, "m", "one"]
    pair = ["all", one, one]
    changes = [pair] * 32_767 + [one, pair, one, one, ["add", *one[1:]], ["dispose", "Root"]]
    items = [{"change": it} for it in changes] + [send("r", "m")]
    classes, imps = [class_("Root", None, [["m", "one"]])], [imp("one", 0, 1)]
    return document(classes, [("r", "Root")], imps, items) | {"version": 3, "made": []}


BESIDE_THE_PEER = (parse_heavy, send_heavy, eval_heavy, lookup_heavy, lookup_deep, lookup_poly,
                   change_heavy, forward_heavy)
ON_THREADS = (workers, beside)


def write(folder, made=BESIDE_THE_PEER, part=1.0):
    """Writes documents into a folder, and tells their paths by their names."""
    paths = {}
    for make in made:
        whole = make(lambda count: max(1, int(count * part)), random.Random(1))
        text = json.dumps(whole, separators=(",", ":"))
        assert len(text) <= MOST_BYTES, make.__name__
        paths[make.__name__] = f"{folder}/{make.__name__}.json"
        write_at(text, paths[make.__name__])
    return paths
