"""A plain model of msgrun: what it answers to a document, by docs/FORMAT.md alone. It shares
nothing with the crates."""
import copy
import itertools
import json
import re

# the texts of the faults, by number; there is no 17
TEXTS = """not json, shape, version, limit, duplicate class, unknown superclass, unknown class,
duplicate object, unknown object, duplicate implementation, unknown implementation, bad selector,
duplicate selector, argument count, argument index, body too deep, , class cycle"""
TEXTS = {number: it for number, it in enumerate(re.split(r",\s", TEXTS), 1) if it}
FORWARDING = "forwardingTargetForSelector:"
MOST_BYTES, MOST_ENTRIES, MOST_SELECTORS, MOST_CHANGES = 16_777_216, 16_384, 4_096, 65_536
MOST = {"categories": 1_024, "objects": 4_096, "imps": 4_096, "items": 65_536}
# an escape; its group has one of a surrogate that is in no pair
ESCAPE = re.compile(r"\\(?:u[dD][89abAB]..\\u[dD][c-fC-F]..|(u[dD][89a-fA-F])|.)")
OPERATORS = {"add": 2, "sub": 2, "mul": 2, "eq": 2, "lt": 2, "if": 3}


class DocumentFault(Exception):
    """The document is refused, by this number."""


def refuse(number, when=True):
    if when:
        raise DocumentFault(number)


def is_of_64_bits(value):
    return -2**63 <= value < 2**63


def number(text):
    """A number that isn't a whole one of 64 bits is a float, as serde_json has it."""
    value = float(text)
    refuse(1, abs(value) == float("inf"))
    may_be = text != "-0" and re.fullmatch("-?[0-9]+", text) and abs(value) < 2**64
    return int(text) if may_be and is_of_64_bits(int(text)) else value


def depth_of(text):
    """How deep the lists and objects of a JSON text nest."""
    brackets = re.findall(r"[][{}]", re.sub(r'"(?:[^"\\]|\\.)*"', "", text))
    steps = (1 if it in "[{" else -1 for it in brackets)
    return max(itertools.accumulate(steps), default=0)


def json_of(data):
    """JSON as serde_json reads it: no lone surrogate, and at most 127 levels."""
    refuse(4, len(data) > MOST_BYTES)
    how = {"parse_int": number, "parse_float": number, "parse_constant": lambda _: refuse(1)}
    try:
        text = data.decode("utf-8")
        value = json.loads(text, **how)
    except (ValueError, RecursionError):
        refuse(1)
    refuse(1, depth_of(text) > 127 or any(it[1] for it in ESCAPE.finditer(text)))
    return value


def shaped(found):
    refuse(2, not found)


def is_whole(value):
    return isinstance(value, int) and not isinstance(value, bool)


def fields(value, *names):
    shaped(isinstance(value, dict) and set(value) == set(names))
    return [value[name] for name in names]


def list_of(form, value):
    shaped(isinstance(value, list))
    return [form(it) for it in value]


def form_of(holds):
    """The form of a value for which it holds."""
    def form(value):
        shaped(holds(value))
        return value

    return form


def is_name(value):
    return isinstance(value, str) and re.fullmatch(r"[A-Za-z_][A-Za-z0-9_]{0,63}", value)


name, name_or_none = form_of(is_name), form_of(lambda it: it is None or is_name(it))
text, truth = form_of(lambda it: isinstance(it, str)), form_of(lambda it: isinstance(it, bool))
count = form_of(lambda it: is_whole(it) and 0 <= it <= 4)


def pairs(value):
    """The methods of a list."""
    them = list_of(form_of(lambda it: isinstance(it, list) and len(it) == 2), value)
    return [(text(selector), name(imp)) for selector, imp in them]


def is_constant(value):
    if isinstance(value, list):
        return value and value[0] in ("obj", "class", "sel")
    return value is None or is_whole(value)


def constant(value):
    shaped(is_constant(value))
    if not isinstance(value, list):
        return value
    shaped(len(value) == 2)
    return value[0], text(value[1]) if value[0] == "sel" else name(value[1])


def expression(value):
    """A constant is ("constant", it); the others are as they are written, with their parts read."""
    if is_constant(value):
        return "constant", constant(value)
    shaped(isinstance(value, list) and value and isinstance(value[0], str))
    kind, *rest = value
    if kind in ("send", "super"):
        shaped(len(rest) >= (2 if kind == "send" else 1))
        receiver = expression(rest.pop(0)) if kind == "send" else ("self",)
        return kind, receiver, text(rest[0]), [expression(it) for it in rest[1:]]
    if kind == "arg":
        shaped(len(rest) == 1 and is_whole(rest[0]) and rest[0] >= 0)
        return kind, rest[0]
    shaped(kind == "self" and not rest or OPERATORS.get(kind) == len(rest))
    return (kind, *map(expression, rest))


# of each kind of change the first version that has it, and the forms of its parts
METHOD = (name, truth, text)
CHANGES = dict.fromkeys(("add", "replace", "set"), (1, *METHOD, name)) | {
    "exchange": (1, *METHOD, *METHOD), "attach": (1, name, pairs, pairs),
    "make": (2, name, name_or_none), "remove": (3, *METHOD), "dispose": (3, name)}


def change(value, version, may_all=True):
    shaped(isinstance(value, list) and value and isinstance(value[0], str))
    kind, *rest = value
    if kind == "all" and version == 3 and may_all:
        shaped(len(rest) >= 2)
        return kind, [change(it, version, False) for it in rest]
    since, *forms = CHANGES.get(kind, (4,))
    shaped(since <= version and len(forms) == len(rest))
    return (kind, *(form(it) for form, it in zip(forms, rest)))


def colons(selector):
    return selector.count(":")


def is_selector(selector):
    is_ended = ":" not in selector or selector.endswith(":")
    has_form = re.fullmatch(r"[A-Za-z_:][A-Za-z0-9_:]{0,63}", selector)
    return has_form and colons(selector) <= 4 and is_ended


def inner(body):
    """The expressions that it is made of; the receiver of a super send is none."""
    if body[0] in OPERATORS:
        return body[1:]
    if body[0] in ("send", "super"):
        return [body[1], *body[3]] if body[0] == "send" else body[3]
    return ()


def parts(body):
    """The expressions of a body, itself first."""
    yield body
    for it in inner(body):
        yield from parts(it)


def depth(body):
    return 1 + max(map(depth, inner(body)), default=0)


def record(**forms):
    """The form of an object that has these keys alone: class_ is the key class."""
    keys = [key.removesuffix("_") for key in forms]
    return lambda value: tuple(form(it) for form, it in zip(forms.values(), fields(value, *keys)))


LISTS = {"methods": pairs, "class_methods": pairs}
FORMS = {
    "classes": record(name=name, super=name_or_none, **LISTS),
    "categories": record(class_=name, **LISTS),
    "objects": record(name=name, class_=name),
    "imps": record(name=name, class_=name, meta=truth, args=count, body=expression),
}


def names_of(rows):
    return [it[0] for it in rows]


def is_twice(names):
    return len(set(names)) < len(names)


class Document:
    """A document that has none of the faults."""

    def __init__(self, data):
        whole = json_of(data)
        shaped(isinstance(whole, dict) and is_whole(whole.get("version")))
        self.version, may_make = whole["version"], whole["version"] in (2, 3)
        fields(whole, "version", *FORMS, "items", *["made"] * may_make)
        lists = (list_of(form, whole[key]) for key, form in FORMS.items())
        self.classes, self.categories, self.objects, self.imps = lists
        self.items = list_of(self.item, whole["items"])
        self.made = list_of(name, whole["made"]) if may_make else []
        self.judge()

    def item(self, value):
        shaped(isinstance(value, dict) and len(value) == 1)
        if "change" in value:
            return "change", change(value["change"], self.version if self.version in (2, 3) else 1)
        shaped(isinstance(value.get("send"), list) and len(value["send"]) >= 2)
        receiver, selector, *values = value["send"]
        return "send", constant(receiver), text(selector), [constant(it) for it in values]

    def judge(self):
        refuse(3, self.version not in (1, 2, 3))
        refuse(4, self.is_beyond())
        refuse(5, is_twice(names_of(self.classes) + self.made))
        refuse(6, self.has_unknown_superclass())
        refuse(7, self.has_unknown_class())
        refuse(8, is_twice(names_of(self.objects)))
        refuse(9, not set(names_of(self.objects)).issuperset(self.named_by("obj")))
        refuse(10, is_twice(names_of(self.imps)))
        refuse(11, self.has_unknown_imp())
        refuse(12, not all(map(is_selector, self.selectors())))
        refuse(13, any(is_twice(names_of(it)) for it in self.lists(True)))
        refuse(14, self.has_other_counts())
        for *_, args, body in self.imps:
            refuse(15, any(it[0] == "arg" and it[1] >= args for it in parts(body)))
        for *_, body in self.imps:
            refuse(16, depth(body) > 32 or sum(1 for _ in parts(body)) > 256)
        refuse(18, any(self.is_cyclic(it[0]) for it in self.classes))

    def changes(self):
        """Each change, of the parts of a list each."""
        for kind, *rest in self.items:
            if kind == "change":
                yield from rest[0][1] if rest[0][0] == "all" else (rest[0],)

    def lists(self, of_changes):
        for it in self.classes:
            yield from it[2:]
        for it in self.categories:
            yield from it[1:]
        for it in self.changes() if of_changes else ():
            yield from it[2:] if it[0] == "attach" else ()

    def constants(self):
        for *_, body in self.imps:
            yield from (it[1] for it in parts(body) if it[0] == "constant")
        for it in self.items:
            yield from (it[1], *it[3]) if it[0] == "send" else ()

    def sends(self):
        for *_, body in self.imps:
            yield from ((it[2], it[3]) for it in parts(body) if it[0] in ("send", "super"))
        yield from ((it[2], it[3]) for it in self.items if it[0] == "send")

    def selectors(self):
        yield FORWARDING
        for them in self.lists(True):
            yield from names_of(them)
        yield from names_of(self.sends())
        yield from self.named_by("sel")
        for kind, *rest in self.changes():
            yield from rest[2:3] if kind in ("add", "replace", "set", "remove", "exchange") else ()
            yield from rest[5:] if kind == "exchange" else ()

    def named_by(self, kind):
        """What the constants of a kind name."""
        return [it[1] for it in self.constants() if isinstance(it, tuple) and it[0] == kind]

    def is_beyond(self):
        entries = sum(map(len, self.lists(False)))
        is_long = len(self.classes) + len(self.made) > 1_024 or entries > MOST_ENTRIES
        is_long = is_long or any(len(getattr(self, them)) > most for them, most in MOST.items())
        return is_long or len(set(self.selectors())) > MOST_SELECTORS

    def has_unknown_superclass(self):
        listed, roots = names_of(self.classes), {it[0] for it in self.classes if it[1] is None}
        for place, (_, above, *_) in enumerate(self.classes):
            if above is not None and above not in (listed[:place] if self.version == 1 else listed):
                return True
        bodies = [body for _, home, meta, _, body in self.imps if not meta and home in roots]
        return any(it[0] == "super" for body in bodies for it in parts(body))

    def has_unknown_class(self):
        listed = set(names_of(self.classes))
        named = [it[1] for it in self.objects] + self.named_by("class")
        for kind, *rest in self.changes():
            named += rest[::3] if kind == "exchange" else rest[:1]
            named += rest[1:] if kind == "make" and rest[1] is not None else ()
        homes = names_of(self.categories) + [it[1] for it in self.imps]
        return not listed.issuperset(homes) or not (listed | set(self.made)).issuperset(named)

    def has_unknown_imp(self):
        named = [it[1] for them in self.lists(True) for it in them]
        named += [it[4] for it in self.changes() if it[0] in ("add", "replace", "set")]
        return not set(names_of(self.imps)).issuperset(named)

    def has_other_counts(self):
        args = {it[0]: it[3] for it in self.imps}
        counts = [(selector, args[imp]) for them in self.lists(False) for selector, imp in them]
        counts += [(selector, len(values)) for selector, values in self.sends()]
        return any(colons(selector) != count for selector, count in counts)

    def is_cyclic(self, start):
        above, at = {it[0]: it[1] for it in self.classes}, start
        for _ in self.classes:
            at = above.get(at)
        return at is not None


def fault_of(data, read=Document):
    """The number of a document's fault, 0 where it has none."""
    try:
        read(data)
    except DocumentFault as fault:
        return fault.args[0]
    return 0


class Refused(Exception):
    """The change is refused, or the send ends, with this text."""


class Tables:
    """The superclass of each class that is there, and each reference's methods, newest first."""

    def __init__(self, document):
        self.above = {it[0]: it[1] for it in document.classes}
        self.listed = frozenset(self.above)
        both = [*self.above, *document.made]
        self.rows = {(it, meta): [] for it in both for meta in (False, True)}
        self.args, self.changes = {it[0]: it[3] for it in document.imps}, 0
        for title, *_, methods, class_methods in (*document.classes, *document.categories):
            self.put(title, methods, class_methods)

    def put(self, title, methods, class_methods):
        for meta, them in ((False, methods), (True, class_methods)):
            self.rows[title, meta][:0] = [list(it) for it in them]

    def held(self, at, selector):
        """The class reference where a lookup finds a method, and the method; or None twice."""
        while at and at[0] in self.above:
            for row in self.rows[at]:
                if row[0] == selector:
                    return at, row
            at = self.superclass(at)
        return None, None

    def superclass(self, at):
        above = self.above[at[0]]
        return (above, at[1]) if above is not None else (at[0], False) if at[1] else None

    def refuse(self, **faults):
        for name, found in faults.items():
            if found:
                raise Refused(name.replace("_", " "))

    def is_full(self, more=0):
        """Whether no change may be made, or none that adds so many methods."""
        entries = sum(map(len, self.rows.values()))
        return self.changes == MOST_CHANGES or more and entries + more > MOST_ENTRIES

    def lacks(self, *titles):
        return not self.above.keys() >= set(titles)

    def make(self, title, above):
        self.refuse(no_class=above is not None and self.lacks(above))
        self.refuse(limit=self.is_full(), duplicate_class=title in self.above)
        self.above[title] = above

    def attach(self, title, *lists):
        both = sum(lists, [])
        differ = any(colons(selector) != self.args[imp] for selector, imp in both)
        is_full = self.is_full(len(both))
        self.refuse(no_class=self.lacks(title), argument_count=differ, limit=is_full)
        self.put(title, *lists)

    def exchange(self, title, meta, selector, other, other_meta, other_selector):
        differ = colons(selector) != colons(other_selector)
        self.refuse(no_class=self.lacks(title, other), argument_count=differ)
        one = self.held((title, meta), selector)[1]
        two = self.held((other, other_meta), other_selector)[1]
        self.refuse(no_method=not one or not two, limit=self.is_full())
        one[1], two[1] = two[1], one[1]

    def own(self, title, meta, selector):
        return next((row for row in self.rows[title, meta] if row[0] == selector), None)

    def one_method(self, kind, title, meta, selector, imp):
        own = self.own(title, meta, selector)
        row = self.held((title, meta), selector)[1] if kind == "set" else own
        self.refuse(no_class=self.lacks(title), argument_count=colons(selector) != self.args[imp])
        self.refuse(method_present=kind == "add" and own, no_method=kind == "set" and not row)
        self.refuse(limit=self.is_full(0 if row else 1))
        if row:
            row[1] = imp
        else:
            self.rows[title, meta].insert(0, [selector, imp])

    def remove(self, title, meta, selector):
        row = self.own(title, meta, selector)
        self.refuse(no_class=self.lacks(title), no_method=not row, limit=self.is_full())
        self.rows[title, meta].remove(row)

    def dispose(self, title):
        in_use = title in self.listed or title in self.above.values()
        self.refuse(no_class=self.lacks(title), limit=self.is_full(), class_in_use=in_use)
        del self.above[title]
        self.rows[title, False], self.rows[title, True] = [], []

    def change(self, kind, *rest):
        if kind in ("add", "replace", "set"):
            self.one_method(kind, *rest)
        else:
            getattr(self, kind)(*rest)


WORDS = {"obj": "object", "class": "class", "sel": "selector"}


def method(at, selector):
    return f"{'+' if at[1] else '-'}[{at[0]} {selector}]"


class Run:
    """The items of a document, one after another."""

    def __init__(self, document):
        self.document, self.tables = document, Tables(document)
        self.imps, self.class_of = {it[0]: it for it in document.imps}, dict(document.objects)
        self.lookups = self.active = self.made = 0
        self.seen, self.changer = [], self

    def lines(self):
        for kind, *rest in self.document.items:
            yield self.changer.changed(rest[0]) if kind == "change" else self.sent(*rest)

    def reasons(self):
        """The lines; under each answer to a send its lookups, their count, and that of changes."""
        for line, (kind, *_) in zip(self.lines(), self.document.items):
            yield line
            if kind == "send":
                before = f", changes before: {self.made}" if self.changer is self else ""
                yield from (*map(self.reason, self.seen), f"  lookups: {len(self.seen)}{before}")

    def reason(self, looked):
        at, selector, holder, imp = looked
        asked = f"  {method(at, selector)}"
        if not holder:
            return f"{asked} not found"
        (title, is_meta), category = holder, ""
        for number, (other, *lists) in enumerate(self.document.categories):
            if other == title and (selector, imp) in lists[is_meta]:
                category = f" of categories[{number}]"
        place = names_of(self.document.imps).index(imp)
        return f"{asked} found in {'metaclass ' * is_meta}{title}: imps[{place}]{category}"

    def changed(self, given):
        tables, place = self.tables, 0
        before = copy.deepcopy((tables.above, tables.rows, tables.changes))
        changes = given[1] if given[0] == "all" else [given]
        try:
            for place, it in enumerate(changes):
                tables.change(*it)
                tables.changes += 1
        except Refused as refused:
            tables.above, tables.rows, tables.changes = before
            return f"refused{f' at {place}' if given[0] == 'all' else ''}: {refused}"
        self.made += len(changes)
        return "ok"

    def sent(self, receiver, selector, values):
        self.lookups, self.active, self.seen = 10_000, 0, []
        try:
            answer = self.send(receiver, selector, values)
        except Refused as fault:
            return f"fault: {fault}"
        if isinstance(answer, tuple):
            return f"{WORDS[answer[0]]} {answer[1]}"
        return "nil" if answer is None else str(answer)

    def isa(self, value):
        return (self.class_of[value[1]], False) if value[0] == "obj" else (value[1], True)

    def lookup(self, at, selector):
        if not self.lookups:
            raise Refused("budget")
        self.lookups -= 1
        holder, row = self.tables.held(at, selector)
        # (what stands in the row is changed by later items)
        self.seen.append((at, selector, holder, row and row[1]))
        return row and row[1]

    def send(self, receiver, selector, values, at=None):
        if receiver is None:
            return None
        if is_whole(receiver) or receiver[0] == "sel":
            raise Refused("not an object")
        while not (imp := self.lookup(at or self.isa(receiver), selector)):
            own = self.isa(receiver)
            asked = self.lookup(own, FORWARDING)
            target = self.body(asked, receiver, [("sel", selector)]) if asked else None
            if target is None or target == receiver:
                raise Refused(f"unrecognized {method(own, selector)}")
            if is_whole(target) or target[0] == "sel":
                raise Refused("target not an object")
            receiver, at = target, None
        return self.body(imp, receiver, values)

    def body(self, imp, receiver, values):
        if self.active == 32:
            raise Refused("depth")
        self.active += 1
        _, home, meta, _, body = self.imps[imp]
        answer = self.value(body, receiver, values, (home, meta))
        self.active -= 1
        return answer

    def value(self, it, receiver, values, home):
        kind = it[0]
        if kind == "self":
            return receiver
        if kind in ("constant", "arg"):
            return it[1] if kind == "constant" else values[it[1]]
        if kind in ("send", "super"):
            to = self.value(it[1], receiver, values, home)
            given = [self.value(part, receiver, values, home) for part in it[3]]
            at = self.tables.superclass(home) if kind == "super" else None
            return self.send(to, it[2], given, at)
        one = self.value(it[1], receiver, values, home)
        if kind == "if":
            return self.value(it[3] if one is None or one == 0 else it[2], receiver, values, home)
        return self.operated(kind, one, self.value(it[2], receiver, values, home))

    @staticmethod
    def operated(kind, one, two):
        if kind != "eq" and not all(it is None or is_whole(it) for it in (one, two)):
            raise Refused("not a number")
        if kind == "eq":
            return int((0 if one is None else one) == (0 if two is None else two))
        one, two = one or 0, two or 0
        answer = {"add": one + two, "sub": one - two, "mul": one * two, "lt": int(one < two)}[kind]
        if not is_of_64_bits(answer):
            raise Refused("overflow")
        return answer


class RunBeside(Run):
    """A run with its changes beside: before each lookup so many are made as `counts` says next."""

    def __init__(self, document, counts):
        super().__init__(document)
        self.changer, self.counts = Run(document), iter(counts)
        self.ahead = iter([it[1] for it in document.items if it[0] == "change"])

    def lookup(self, at, selector):
        if self.lookups:
            count = next(self.counts)
            while self.made < count:
                self.changed(next(self.ahead))
        imp = super().lookup(at, selector)
        self.seen[-1] += (self.made,)
        return imp

    def reason(self, looked):
        return f"{super().reason(looked[:-1])}, changes before: {looked[-1]}"


def answer(data, lines=Run.lines):
    """What msgrun writes to standard output and to standard error, and its status."""
    try:
        run = Run(Document(data))
    except DocumentFault as fault:
        number = fault.args[0]
        return b"", f"msgrun: document fault {number}: {TEXTS[number]}\n".encode(), 2
    return "".join(line + "\n" for line in lines(run)).encode(), b"", 0


def explanation(data):
    """What `./msgrun --explain` writes of a document that is answered."""
    return answer(data, Run.reasons)


def explanation_beside(data, counts):
    """What `./msgbeside --explain` writes of one, where its lookups are answered so."""
    lines = RunBeside(Document(data), counts).reasons()
    return "".join(line + "\n" for line in lines).encode()
