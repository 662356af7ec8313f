"""A host in Python: the same library, shared, by ctypes. The interpreter's lock is the runtime lock
(ctypes.PyDLL keeps it in a call)."""
import ctypes as c
import sys


class Handle(c.Structure):
    _fields_ = [("at", c.c_void_p), ("open", c.c_bool)]


class Method(c.Structure):
    _fields_ = [("sel", c.c_uint32), ("imp", c.c_uint32)]


library = c.PyDLL(sys.argv[1])
handle, number, methods = c.POINTER(Handle), c.c_uint32, (c.POINTER(Method), c.c_size_t)
for name, words in {
    "msg_open_words": (handle, c.POINTER(number), c.c_size_t),
    "msg_close": (handle,),
    "msg_make_class": (handle, number, number),
    "msg_make_root_class": (handle, number),
    "msg_attach": (handle, number, *methods, *methods),
    "msg_lookup": (handle, number, c.c_bool, number, c.POINTER(number)),
    "msg_replace": (handle, number, c.c_bool, number, number),
}.items():
    getattr(library, name).argtypes = words
    getattr(library, name).restype = number


class Fault(Exception):
    pass


class Runtime:
    """Names are kept here: the library knows numbers alone, classes from 0, selectors and
    implementations from 1."""

    def __init__(self, classes=0):
        self.handle, self.classes, self.selectors = Handle(), {}, {}
        self.bodies = [lambda side: "forwarded"]
        self.ask(library.msg_open_words, (number * 1)(classes), 1)

    def ask(self, call, *words):
        answer = call(c.byref(self.handle), *words)
        if answer:
            raise Fault(answer)

    def selector(self, name):
        return self.selectors.setdefault(name, len(self.selectors) + 1)

    def implementation(self, body):
        self.bodies.append(body)
        return len(self.bodies) - 1

    def make(self, name, superclass, **methods):
        made = self.classes.setdefault(name, len(self.classes))
        if superclass is None:
            self.ask(library.msg_make_root_class, made)
        else:
            self.ask(library.msg_make_class, made, self.classes[superclass])
        rows = [(self.selector(it), self.implementation(body)) for it, body in methods.items()]
        rows = (Method * len(rows))(*rows)
        self.ask(library.msg_attach, made, rows, len(rows), rows, 0)

    def send(self, receiver, name, class_name):
        imp, class_ = number(), self.classes[class_name]
        self.ask(library.msg_lookup, class_, False, self.selector(name), c.byref(imp))
        return self.bodies[imp.value](receiver)

    def replace(self, class_name, name, body):
        imp, class_ = self.implementation(body) if body else 0, self.classes[class_name]
        self.ask(library.msg_replace, class_, False, self.selector(name), imp)

    def close(self):
        self.ask(library.msg_close)


def fault_of(call, *words):
    try:
        return call(*words)
    except Fault as fault:
        return f"fault {fault}"


print("too many classes:", fault_of(Runtime, 1 << 21))
runtime = Runtime(2)
runtime.make("Shape", None, area=lambda side: 0, sides=lambda side: 4)
runtime.make("Square", "Shape", area=lambda side: side * side)
print("area", runtime.send(3, "area", "Square"), "sides", runtime.send(3, "sides", "Square"))
runtime.replace("Square", "area", lambda side: 4)
print("area", runtime.send(3, "area", "Square"), "of a shape", runtime.send(3, "area", "Shape"))
print("no such method:", runtime.send(3, "volume", "Square"))
print("no implementation:", fault_of(runtime.replace, "Square", "area", None))
print("a class too many:", fault_of(runtime.make, "Tile", "Square"))
runtime.close()
print("closed:", fault_of(runtime.close))
