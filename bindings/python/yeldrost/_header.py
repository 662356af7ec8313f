"""`msg_runtime.h` as ctypes see it. What each call returns, and what its caller is trusted with,
stands in that header."""
import ctypes as c

VERSION, NOTES = 1000, 8192
NOTED_NONE = 1 << 32


class msg_note(c.Structure):
    _fields_ = [
        ("seal", c.c_uint64),
        ("count", c.c_uint64),
        ("imp", c.c_uint32),
        ("parity", c.c_uint32),
        ("stamp", c.c_uint64),
    ]


class msg_runtime(c.Structure):
    _fields_ = [("at", c.c_void_p), ("open", c.c_bool)]


class msg_sender(c.Structure):
    _fields_ = [
        ("at", c.c_void_p),
        ("open", c.c_bool),
        ("apart", c.c_bool * 7),
        ("written", c.c_bool * 64),
        ("unused", c.c_uint64 * 2),
        ("notes", msg_note * NOTES),
        ("second_notes", msg_note * NOTES),
    ]


class msg_texts(c.Structure):
    _fields_ = [("at", c.c_void_p), ("open", c.c_bool)]


class msg_class(c.Structure):
    _fields_ = [("number", c.c_uint32), ("meta", c.c_bool)]


class msg_method(c.Structure):
    _fields_ = [("sel", c.c_uint32), ("imp", c.c_uint32)]


class msg_change(c.Structure):
    _fields_ = [
        (name, c.c_uint32)
        for name in ("kind", "number", "meta", "sel", "imp", "other", "other_meta", "other_sel")
    ]


class msg_lookup_row(c.Structure):
    _fields_ = [(name, c.c_uint32) for name in ("number", "meta", "sel")]


KINDS = {
    "ADDS": 1,
    "REPLACES": 2,
    "SETS_IMP": 3,
    "EXCHANGES": 4,
    "MAKES_CLASS": 5,
    "MAKES_ROOT_CLASS": 6,
    "REMOVES": 7,
    "DISPOSES_CLASS": 8,
    "COVERS": 9,
}


class msg_config(c.Structure):
    _fields_ = [("classes", c.c_uint32), ("senders", c.c_uint32), ("arrays", c.c_uint32 * 9)]


class msg_report_row(c.Structure):
    _fields_ = [
        ("fills", c.c_uint64),
        ("growths", c.c_uint64),
        ("flushes", c.c_uint64),
        ("retired", c.c_uint64),
        ("given_again", c.c_uint64),
        ("collections", c.c_uint64),
        ("freed", c.c_uint64),
        ("no_array", c.c_uint64 * 9),
        ("refused_senders", c.c_uint64),
    ]


STRUCTURES = (
    msg_note,
    msg_runtime,
    msg_sender,
    msg_texts,
    msg_class,
    msg_method,
    msg_change,
    msg_lookup_row,
    msg_config,
    msg_report_row,
)

FAULTS = {
    "NoSuchClass": (1, "no such class, or it isn't made"),
    "NoSuchImp": (2, "an implementation's number is 0"),
    "ArgumentCount": (3, "another count of arguments"),
    "MethodPresent": (4, "the class has the method"),
    "NoMethod": (5, "no such method"),
    "Limit": (6, "as many changes or methods as there may be"),
    "ChangeMemory": (7, "no memory for the change"),
    "DuplicateClass": (8, "the class is made already"),
    "ClassInUse": (9, "a class is below it"),
    "Closed": (64, "a handle isn't open"),
    "AlreadyOpen": (65, "the handle is open already"),
    "NoClass": (66, "no such class number"),
    "NoSelector": (67, "a selector's number is 0"),
    "NoSender": (68, "as many senders are open as the config says"),
    "NoMemory": (69, "no memory"),
    "None_": (70, "there is none"),
    "Missed": (71, "not cached"),
    "BadConfig": (73, "the config asks for too much"),
    "BadChange": (75, "no such kind of change, or meta above 1"),
    "NoRoom": (76, "another count of places is needed for the answer"),
    "LockHeld": (74, "the thread has the lock, or can't wait for it"),
}

_runtime, _sender = c.POINTER(msg_runtime), c.POINTER(msg_sender)
_number, _meta, _selector, _imp = c.c_uint32, c.c_bool, c.c_uint32, c.c_uint32
_told32, _told64 = c.POINTER(c.c_uint32), c.POINTER(c.c_uint64)
_texts, _bytes = c.POINTER(msg_texts), c.POINTER(c.c_uint8)
_methods, _changes, _size = c.POINTER(msg_method), c.POINTER(msg_change), c.POINTER(c.c_size_t)
_lookups = c.POINTER(msg_lookup_row)
_answer = c.c_uint32

# What each call gives, and what it takes.
CALLS = {
    "msg_open_words": (_answer, (_runtime, _told32, c.c_size_t)),
    "msg_close": (_answer, (_runtime,)),
    "msg_class_count": (_answer, (_runtime, _told32)),
    "msg_change_count": (_answer, (_runtime, _told64)),
    "msg_report_words": (_answer, (_runtime, _told64, c.c_size_t)),
    "msg_lookup": (_answer, (_runtime, _number, _meta, _selector, _told32)),
    "msg_superclass": (_answer, (_runtime, _number, _meta, c.POINTER(msg_class))),
    "msg_holder": (_answer, (_runtime, _number, _meta, _selector, c.POINTER(msg_class))),
    "msg_methods": (_answer, (_runtime, _number, _meta, _methods, c.c_size_t, _size)),
    "msg_classes": (_answer, (_runtime, _told32, c.c_size_t, _size)),
    "msg_classes_below": (_answer, (_runtime, _number, _told32, c.c_size_t, _size)),
    "msg_add": (_answer, (_runtime, _number, _meta, _selector, _imp)),
    "msg_replace": (_answer, (_runtime, _number, _meta, _selector, _imp)),
    "msg_set_imp": (_answer, (_runtime, _number, _meta, _selector, _imp)),
    "msg_exchange": (_answer, (_runtime, _number, _meta, _selector, _number, _meta, _selector)),
    "msg_attach": (_answer, (_runtime, _number, _methods, c.c_size_t, _methods, c.c_size_t)),
    "msg_make_class": (_answer, (_runtime, _number, _number)),
    "msg_make_root_class": (_answer, (_runtime, _number)),
    "msg_remove": (_answer, (_runtime, _number, _meta, _selector)),
    "msg_dispose_class": (_answer, (_runtime, _number)),
    "msg_change_all": (_answer, (_runtime, _changes, c.c_size_t, _size)),
    "msg_change_all_with_undo": (
        _answer,
        (_runtime, _changes, c.c_size_t, _changes, c.c_size_t, _size, _size),
    ),
    "msg_reach": (
        _answer,
        (_runtime, _changes, c.c_size_t, c.POINTER(c.c_bool), c.c_size_t, _size),
    ),
    "msg_words": (_answer, (_runtime, c.POINTER(_told64))),
    "msg_sender_open": (_answer, (_runtime, _sender)),
    "msg_sender_close": (_answer, (_runtime, _sender)),
    "msg_fill": (_answer, (_runtime, _sender, _number, _meta, _selector, _told32)),
    "msg_fill_all": (
        _answer,
        (_runtime, _sender, _lookups, c.c_size_t, _told32, c.c_size_t, _size),
    ),
    "msg_meet": (_answer, (_runtime, _sender)),
    "msg_rest": (_answer, (_runtime, _sender)),
    "msg_seen_by_all": (_answer, (_runtime, _told64)),
    "msg_version": (c.c_uint32, ()),
    "msg_sender_size": (c.c_size_t, ()),
    "msg_recall": (c.c_size_t, (_sender, c.c_size_t, _selector, c.c_uint64)),
    "msg_probe": (_answer, (_sender, _number, _meta, _selector, _told32)),
    "msg_probe_all": (_answer, (_sender, _lookups, c.c_size_t, _told32, c.c_size_t, _size)),
    "msg_refresh": (_answer, (_sender, _told64)),
    "msg_stamp": (_answer, (_sender, _number, _meta, _told64)),
    "msg_texts_open": (_answer, (_texts,)),
    "msg_texts_close": (_answer, (_texts,)),
    "msg_texts_intern": (_answer, (_texts, _bytes, c.c_size_t, _told32)),
    "msg_texts_find": (_answer, (_texts, _bytes, c.c_size_t, _told32)),
    "msg_texts_text": (_answer, (_texts, _number, _bytes, c.c_size_t, _size)),
    "msg_texts_colons": (_answer, (_texts, _number, _size)),
    "msg_type_first": (c.c_size_t, (_bytes, c.c_size_t, _told64, _told64)),
    "msg_type_member": (
        _answer,
        (_bytes, c.c_size_t, c.c_uint64, _size, _size, _told64, _told64, _told64),
    ),
}

# What stands for the calls that the header has inline, which a shared library doesn't export.
INLINE = {
    "msg_open": "Runtime",
    "msg_report": "Runtime.report",
    "msg_fault_text": "Fault",
    "msg_find": "Sender.find",
    "msg_find_all": "Sender.find_all",
    "msg_key": "Sender.recall",
    "msg_said": "Sender.recall",
    "msg_slot": "Sender.recall",
    "msg_stamp_of": "Sender.stamp",
    "msg_recall_key": "Sender.recall",
    "msg_recall_none_key": "Sender.recalls_none",
    "msg_recall_inline": "Sender.recall",
}
