//! `msg_runtime.h` as it is, but for `msg_find`, `msg_find_all` and `msg_fault_text`. What each call returns, and what
//! its caller is trusted with, stands in that header: no call here is safe. The crate `yeldrost` has safe ones.
#![no_std]
#![warn(missing_docs)]
#![allow(non_camel_case_types)]
use core::ffi::c_void;
use core::sync::atomic::{AtomicU64, Ordering};

/// The version of the header that this crate is of: 1,000,000 * major + 1,000 * minor + patch.
pub const MSG_VERSION_NUMBER: u32 = 1_000_000 * number(env!("CARGO_PKG_VERSION_MAJOR"))
    + 1_000 * number(env!("CARGO_PKG_VERSION_MINOR"))
    + number(env!("CARGO_PKG_VERSION_PATCH"));

const fn number(digits: &str) -> u32 {
    match u32::from_str_radix(digits, 10) {
        Ok(number) => number,
        Err(_) => panic!("a version has numbers"),
    }
}

/// How many places a sender has, with two notes each.
pub const MSG_NOTES: usize = 8192;
/// Of slots below this keys are one to one.
pub const SLOTS: u32 = 67_108_864;
/// Of `msg_recall`: it is noted that there is no method.
pub const NOTED_NONE: usize = 1 << 32;

/// What a sender has noted of one lookup.
#[repr(C)]
#[derive(Clone, Copy)]
pub struct msg_note {
    /// The lookup's key less what is said of it; 0 is no note.
    pub seal: u64,
    /// After how many changes it was looked up.
    pub count: u64,
    /// An implementation's number.
    pub imp: u32,
    /// The same in both notes of a place where the second one is the newer: 0 or 1.
    pub parity: u32,
    /// Where the stamp of its class lies: bytes after the first of the shared words.
    pub stamp: u64,
}

/// A runtime's handle.
#[repr(C)]
pub struct msg_runtime {
    /// The library's.
    pub at: *mut c_void,
    /// Whether it is open.
    pub open: bool,
}

/// A sender's handle, for one thread.
#[repr(C)]
pub struct msg_sender {
    /// The library's.
    pub at: *mut c_void,
    /// Whether it is open.
    pub open: bool,
    /// Unused, so that what follows begins at 16.
    pub apart: [bool; 7],
    /// The library's: which 128 places have notes.
    pub written: [bool; 64],
    /// So that no note lies on two lines of the cache.
    pub unused: [u64; 2],
    /// The first note at each place.
    pub notes: [msg_note; MSG_NOTES],
    /// The second one.
    pub second_notes: [msg_note; MSG_NOTES],
}

/// The handle of texts.
#[repr(C)]
pub struct msg_texts {
    /// The library's.
    pub at: *mut c_void,
    /// Whether it is open.
    pub open: bool,
}

/// A class, or its metaclass.
#[repr(C)]
#[derive(Clone, Copy, Default)]
pub struct msg_class {
    /// A class's number.
    pub number: u32,
    /// Whether its metaclass is meant.
    pub meta: bool,
}

/// A method of a category.
#[repr(C)]
#[derive(Clone, Copy, Debug, Default, PartialEq, Eq)]
pub struct msg_method {
    /// A selector's number.
    pub sel: u32,
    /// An implementation's number.
    pub imp: u32,
}

/// A change of a list. Its kind says which fields are read; the others are 0.
#[repr(C)]
#[derive(Clone, Copy, Debug, Default, PartialEq, Eq)]
pub struct msg_change {
    /// `MSG_ADDS` and so on.
    pub kind: u32,
    /// A class's number.
    pub number: u32,
    /// Whether its metaclass is meant.
    pub meta: u32,
    /// A selector's number.
    pub sel: u32,
    /// An implementation's number.
    pub imp: u32,
    /// The other class's number, or the superclass's.
    pub other: u32,
    /// Whether the other class's metaclass is meant.
    pub other_meta: u32,
    /// The other selector's number.
    pub other_sel: u32,
}

/// A lookup, as one of several.
#[repr(C)]
#[derive(Clone, Copy, Debug, Default, PartialEq, Eq)]
pub struct msg_lookup_row {
    /// A class's number.
    pub number: u32,
    /// Whether its metaclass is meant.
    pub meta: u32,
    /// A selector's number.
    pub sel: u32,
}

/// The kind of a change that stands for `msg_add`.
pub const MSG_ADDS: u32 = 1;
/// The kind of a change that stands for `msg_replace`.
pub const MSG_REPLACES: u32 = 2;
/// The kind of a change that stands for `msg_set_imp`.
pub const MSG_SETS_IMP: u32 = 3;
/// The kind of a change that stands for `msg_exchange`.
pub const MSG_EXCHANGES: u32 = 4;
/// The kind of a change that stands for `msg_make_class`.
pub const MSG_MAKES_CLASS: u32 = 5;
/// The kind of a change that stands for `msg_make_root_class`.
pub const MSG_MAKES_ROOT_CLASS: u32 = 6;
/// The kind of a change that stands for `msg_remove`.
pub const MSG_REMOVES: u32 = 7;
/// The kind of a change that stands for `msg_dispose_class`.
pub const MSG_DISPOSES_CLASS: u32 = 8;
/// The kind of a change that stands for `msg_attach` of one method.
pub const MSG_COVERS: u32 = 9;

/// How much a runtime has room for; 0 is the default, of `arrays` if all are 0.
#[repr(C)]
#[derive(Clone, Copy, Debug, Default, PartialEq, Eq)]
pub struct msg_config {
    /// Class numbers are below this: 16,384 by default, at most 1,048,576.
    pub classes: u32,
    /// How many may be open at once: 1,024 by default, at most 16,384.
    pub senders: u32,
    /// How many arrays of 4, 8, .., 1,024 entries the shared caches have, at most 65,535 of each. If all are 0 they are
    /// 4,096 2,048 512 256 128 64 32 16 8; otherwise 0 is none.
    pub arrays: [u32; 9],
}

/// What was done to caches since the runtime was opened.
#[repr(C)]
#[derive(Clone, Copy, Debug, Default, PartialEq, Eq)]
pub struct msg_report_row {
    /// Entries that were stored in caches.
    pub fills: u64,
    /// Arrays that were installed for an entry.
    pub growths: u64,
    /// Classes or metaclasses whose array a change took.
    pub flushes: u64,
    /// Arrays that were taken by a change or a growth.
    pub retired: u64,
    /// Installs of an array that was installed before.
    pub given_again: u64,
    /// Searches for arrays nobody holds any more.
    pub collections: u64,
    /// Arrays freed by them; other retired ones wait.
    pub freed: u64,
    /// Entries not cached: no array of 4, 8, .. is free.
    pub no_array: [u64; 9],
    /// Senders asked for while all were in use.
    pub refused_senders: u64,
}

/// A closed runtime.
pub const MSG_RUNTIME_INIT: msg_runtime = msg_runtime {
    at: core::ptr::null_mut(),
    open: false,
};

/// Closed texts.
pub const MSG_TEXTS_INIT: msg_texts = msg_texts {
    at: core::ptr::null_mut(),
    open: false,
};

/// Success.
pub const MSG_DONE: u32 = 0;
/// No class of the number, or it isn't made.
pub const MSG_NO_SUCH_CLASS: u32 = 1;
/// The implementation's number is 0.
pub const MSG_NO_SUCH_IMP: u32 = 2;
/// Never of a host's runtime.
pub const MSG_ARGUMENT_COUNT: u32 = 3;
/// The class has the method itself.
pub const MSG_METHOD_PRESENT: u32 = 4;
/// No such method is found.
pub const MSG_NO_METHOD: u32 = 5;
/// 2^48 changes, 2^32 methods or 2^32 - 1 texts.
pub const MSG_LIMIT: u32 = 6;
/// No memory for the change.
pub const MSG_CHANGE_MEMORY: u32 = 7;
/// The class is made already.
pub const MSG_DUPLICATE_CLASS: u32 = 8;
/// A class is below it.
pub const MSG_CLASS_IN_USE: u32 = 9;
/// A handle isn't open.
pub const MSG_CLOSED: u32 = 64;
/// The handle is open already.
pub const MSG_ALREADY_OPEN: u32 = 65;
/// A class number isn't below the count.
pub const MSG_NO_CLASS: u32 = 66;
/// A selector's number is 0.
pub const MSG_NO_SELECTOR: u32 = 67;
/// As many senders as the config says are open.
pub const MSG_NO_SENDER: u32 = 68;
/// No memory.
pub const MSG_NO_MEMORY: u32 = 69;
/// There is no superclass, method, text or further member.
pub const MSG_NONE: u32 = 70;
/// Of `msg_probe`: not cached. Ask `msg_fill`.
pub const MSG_MISSED: u32 = 71;
/// A field is beyond its most, or isn't known.
pub const MSG_BAD_CONFIG: u32 = 73;
/// A change of no kind, or meta above 1.
pub const MSG_BAD_CHANGE: u32 = 75;
/// The array for the answer has another size.
pub const MSG_NO_ROOM: u32 = 76;
/// Of `msg_process.h`: the lock is held already.
pub const MSG_LOCK_HELD: u32 = 74;

extern "C" {
    /// Opens a runtime without classes and without changes.
    pub fn msg_open_words(runtime: *mut msg_runtime, config: *const u32, words: usize) -> u32;
    /// Closes a runtime and gives its memory back.
    pub fn msg_close(runtime: *mut msg_runtime) -> u32;
    /// How many class numbers the config reserved.
    pub fn msg_class_count(runtime: *mut msg_runtime, count: *mut u32) -> u32;
    /// How many changes were made.
    pub fn msg_change_count(runtime: *mut msg_runtime, count: *mut u64) -> u32;
    /// Reports what was done to caches: the first `count` fields of a msg_report_row, into `words`.
    pub fn msg_report_words(runtime: *mut msg_runtime, words: *mut u64, count: usize) -> u32;
    /// Looks a method up after all changes so far (class_getMethodImplementation).
    pub fn msg_lookup(
        runtime: *mut msg_runtime,
        number: u32,
        meta: bool,
        sel: u32,
        imp: *mut u32,
    ) -> u32;
    /// What stands above (class_getSuperclass): above a class its superclass, above a metaclass the
    /// superclass's metaclass, and above a root's metaclass the root itself.
    pub fn msg_superclass(
        runtime: *mut msg_runtime,
        number: u32,
        meta: bool,
        above: *mut msg_class,
    ) -> u32;
    /// Where the method stands that a lookup finds (class_getInstanceMethod): the class itself, or
    /// one above it.
    pub fn msg_holder(
        runtime: *mut msg_runtime,
        number: u32,
        meta: bool,
        sel: u32,
        at: *mut msg_class,
    ) -> u32;
    /// The methods that a class or a metaclass has itself (class_copyMethodList), the newest first:
    /// of several of one selector a lookup finds the first.
    pub fn msg_methods(
        runtime: *mut msg_runtime,
        number: u32,
        meta: bool,
        methods: *mut msg_method,
        room: usize,
        count: *mut usize,
    ) -> u32;
    /// The classes that are made (objc_getClassList), each after its superclass, in the same way.
    pub fn msg_classes(
        runtime: *mut msg_runtime,
        classes: *mut u32,
        room: usize,
        count: *mut usize,
    ) -> u32;
    /// The classes below a class, in the same way: its subclasses, theirs, and so on, each once.
    pub fn msg_classes_below(
        runtime: *mut msg_runtime,
        number: u32,
        classes: *mut u32,
        room: usize,
        count: *mut usize,
    ) -> u32;
    /// Gives a class a method of its own (class_addMethod), which hides an inherited one.
    pub fn msg_add(runtime: *mut msg_runtime, number: u32, meta: bool, sel: u32, imp: u32) -> u32;
    /// Gives a class this method in place of its own (class_replaceMethod), or adds it if the class
    /// has none of its own.
    pub fn msg_replace(
        runtime: *mut msg_runtime,
        number: u32,
        meta: bool,
        sel: u32,
        imp: u32,
    ) -> u32;
    /// Sets the method that a lookup in the class finds (method_setImplementation).
    pub fn msg_set_imp(
        runtime: *mut msg_runtime,
        number: u32,
        meta: bool,
        sel: u32,
        imp: u32,
    ) -> u32;
    /// Exchanges the two methods that lookups find (method_exchangeImplementations), each where it
    /// stands.
    pub fn msg_exchange(
        runtime: *mut msg_runtime,
        number: u32,
        meta: bool,
        sel: u32,
        other: u32,
        other_meta: bool,
        other_sel: u32,
    ) -> u32;
    /// Attaches a category: `methods` for a class, and `class_methods` for its metaclass.
    pub fn msg_attach(
        runtime: *mut msg_runtime,
        number: u32,
        methods: *const msg_method,
        count: usize,
        class_methods: *const msg_method,
        class_count: usize,
    ) -> u32;
    /// Makes a class (objc_allocateClassPair with objc_registerClassPair) and its metaclass,
    /// without methods, below a superclass that is made.
    pub fn msg_make_class(runtime: *mut msg_runtime, number: u32, superclass: u32) -> u32;
    /// Makes a root class and its metaclass, without methods.
    pub fn msg_make_root_class(runtime: *mut msg_runtime, number: u32) -> u32;
    /// Takes the method away that a class has of its own (class_removeMethod).
    pub fn msg_remove(runtime: *mut msg_runtime, number: u32, meta: bool, sel: u32) -> u32;
    /// Takes a class away (objc_disposeClassPair), with its metaclass and the methods of both.
    pub fn msg_dispose_class(runtime: *mut msg_runtime, number: u32) -> u32;
    /// Makes a list of `count` changes as one: every lookup, by whatever sender, is from before all
    /// of them or from after all, and the count of changes grows by one.
    pub fn msg_change_all(
        runtime: *mut msg_runtime,
        changes: *const msg_change,
        count: usize,
        place: *mut usize,
    ) -> u32;
    /// msg_change_all that also writes a way back: `undone` changes in `undo`, which has `room`
    /// entries.
    pub fn msg_change_all_with_undo(
        runtime: *mut msg_runtime,
        changes: *const msg_change,
        count: usize,
        undo: *mut msg_change,
        room: usize,
        undone: *mut usize,
        place: *mut usize,
    ) -> u32;
    /// A dry run of msg_change_all: which lookups would it change? `reached` has `room` entries,
    /// twice as many as there are class numbers: [2 * n] is class n, and [2 * n + 1] its metaclass.
    pub fn msg_reach(
        runtime: *mut msg_runtime,
        changes: *const msg_change,
        count: usize,
        reached: *mut bool,
        room: usize,
        place: *mut usize,
    ) -> u32;
    /// Where the words lie that all threads share, which the inline recall loads a stamp from.
    pub fn msg_words(runtime: *mut msg_runtime, words: *mut *const u64) -> u32;
    /// Opens a sender for one thread.
    pub fn msg_sender_open(runtime: *mut msg_runtime, sender: *mut msg_sender) -> u32;
    /// Closes a sender.
    pub fn msg_sender_close(runtime: *mut msg_runtime, sender: *mut msg_sender) -> u32;
    /// Looks a method up after all changes so far (lookUpImpOrForward), which the sender has then
    /// seen.
    pub fn msg_fill(
        runtime: *mut msg_runtime,
        sender: *mut msg_sender,
        number: u32,
        meta: bool,
        sel: u32,
        imp: *mut u32,
    ) -> u32;
    /// Looks up several after all changes so far, which the sender has then seen.
    pub fn msg_fill_all(
        runtime: *mut msg_runtime,
        sender: *mut msg_sender,
        lookups: *const msg_lookup_row,
        count: usize,
        imps: *mut u32,
        room: usize,
        place: *mut usize,
    ) -> u32;
    /// Shows the sender all changes so far.
    pub fn msg_meet(runtime: *mut msg_runtime, sender: *mut msg_sender) -> u32;
    /// msg_meet, and notes that the sender rests: the host says by it that nothing the sender found
    /// before is in use.
    pub fn msg_rest(runtime: *mut msg_runtime, sender: *mut msg_sender) -> u32;
    /// When old code can go: how many changes every open sender had seen when it rested last.
    pub fn msg_seen_by_all(runtime: *mut msg_runtime, count: *mut u64) -> u32;
    /// The library's MSG_VERSION_NUMBER: a host that may meet another library compares it with
    /// `MSG_VERSION_NUMBER`.
    pub fn msg_version() -> u32;
    /// How many bytes a msg_sender has, for hosts that don't compile this header.
    pub fn msg_sender_size() -> usize;
    /// What the sender has noted of the lookup after `since` changes or more, for slot 2 * number +
    /// meta.
    pub fn msg_recall(sender: *const msg_sender, slot: usize, sel: u32, since: u64) -> usize;
    /// What is cached (cache_getImp): what the sender has noted, else what the shared cache has.
    pub fn msg_probe(
        sender: *mut msg_sender,
        number: u32,
        meta: bool,
        sel: u32,
        imp: *mut u32,
    ) -> u32;
    /// What several lookups find, all at one version: after the same changes, which the sender has
    /// then seen, and which are no fewer than before.
    pub fn msg_probe_all(
        sender: *mut msg_sender,
        lookups: *const msg_lookup_row,
        count: usize,
        imps: *mut u32,
        room: usize,
        place: *mut usize,
    ) -> u32;
    /// How many changes there are.
    pub fn msg_refresh(sender: *mut msg_sender, count: *mut u64) -> u32;
    /// The stamp of a class, or of its metaclass: no change after so many has affected it, so what
    /// msg_recall has since then is what a lookup finds. From a change of the class until its next
    /// msg_fill it is u64::MAX: then nothing noted counts.
    pub fn msg_stamp(sender: *mut msg_sender, number: u32, meta: bool, stamp: *mut u64) -> u32;
    /// Opens texts. There are none yet.
    pub fn msg_texts_open(texts: *mut msg_texts) -> u32;
    /// Closes texts and gives their memory back.
    pub fn msg_texts_close(texts: *mut msg_texts) -> u32;
    /// The text's number (sel_registerName).
    pub fn msg_texts_intern(
        texts: *mut msg_texts,
        text: *const u8,
        length: usize,
        number: *mut u32,
    ) -> u32;
    /// The text's number.
    pub fn msg_texts_find(
        texts: *mut msg_texts,
        text: *const u8,
        length: usize,
        number: *mut u32,
    ) -> u32;
    /// The number's text (sel_getName): as much as there is room for in `into`, and `length` is set
    /// to how long it is.
    pub fn msg_texts_text(
        texts: *mut msg_texts,
        number: u32,
        into: *mut u8,
        room: usize,
        length: *mut usize,
    ) -> u32;
    /// Counts the colons of a text, which are the arguments that a selector of this name takes.
    pub fn msg_texts_colons(texts: *mut msg_texts, number: u32, count: *mut usize) -> u32;
    /// The size and alignment of a text's first type, in bytes.
    pub fn msg_type_first(text: *const u8, length: usize, size: *mut u64, align: *mut u64)
        -> usize;
    /// The next member of a structure, in front of a text.
    pub fn msg_type_member(
        text: *const u8,
        length: usize,
        before: u64,
        begin: *mut usize,
        end: *mut usize,
        first: *mut u64,
        last: *mut u64,
        align: *mut u64,
    ) -> u32;
}

/// Opens a runtime by a config.
///
/// # Safety
/// As the header says of each call.
#[inline]
pub unsafe fn msg_open(runtime: *mut msg_runtime, config: *const msg_config) -> u32 {
    let by_default = msg_config::default();
    let config = if config.is_null() {
        &by_default
    } else {
        config
    };
    msg_open_words(
        runtime,
        config.cast(),
        size_of::<msg_config>() / size_of::<u32>(),
    )
}

/// What was done to caches since the runtime was opened.
///
/// # Safety
/// As the header says of each call.
#[inline]
pub unsafe fn msg_report(runtime: *mut msg_runtime, report: *mut msg_report_row) -> u32 {
    msg_report_words(
        runtime,
        report.cast(),
        size_of::<msg_report_row>() / size_of::<u64>(),
    )
}

// How far the keys of two slots are apart, and of two selectors.
const KEY_OF_SLOT: u64 = 34_359_769_160;
const KEY_OF_SEL: u64 = 8;

/// Of `msg_said`: the number is longer, and is the note's `imp`.
pub const SAID_LONG: u64 = 65_534;
/// Of `msg_said`: it is noted that there is no method.
pub const SAID_NONE: u64 = 65_535;

/// The slot of a class, or of its metaclass; and `SLOTS` of a number that is too great for one.
#[inline]
pub const fn msg_slot(number: u32, meta: bool) -> u32 {
    if number < SLOTS / 2 {
        2 * number + meta as u32
    } else {
        SLOTS
    }
}

/// The key of a lookup. Keys are unique for slots below `SLOTS`.
#[inline]
pub const fn msg_key(slot: u32, sel: u32) -> u64 {
    (slot as u64 + 1)
        .wrapping_mul(KEY_OF_SLOT)
        .wrapping_add(sel as u64 * KEY_OF_SEL)
}

// The first note at the place of a key.
#[inline]
unsafe fn note_of(sender: *const msg_sender, key: u64) -> *const msg_note {
    &(*sender).notes[(key / KEY_OF_SEL) as usize % MSG_NOTES]
}

/// What a note at the place of a key says of its lookup: a number below `SAID_LONG`, `SAID_LONG`,
/// `SAID_NONE`, or anything else, which is nothing.
///
/// # Safety
/// The note is of a sender that is in no call.
#[inline]
pub unsafe fn msg_said(note: *const msg_note, key: u64) -> u64 {
    key.wrapping_sub((*note).seal)
}

/// Returns the stamp of a note's class (`msg_stamp`) by one load of a shared word.
///
/// # Safety
/// The note is of a sender of the runtime whose words these are (`msg_words`), and one of them is open.
#[inline]
pub unsafe fn msg_stamp_of(words: *const u64, note: *const msg_note) -> u64 {
    let stamp = words.byte_add((*note).stamp as usize);
    (*stamp.cast::<AtomicU64>()).load(Ordering::SeqCst)
}

/// Returns what the first note at a key's place says of it since the stamp of its class, without a call: 0 if it says
/// nothing, or for forwarding.
///
/// # Safety
/// The sender is open and in no call, and the words are its runtime's.
#[inline]
pub unsafe fn msg_recall_key(sender: *const msg_sender, words: *const u64, key: u64) -> u32 {
    let note = note_of(sender, key);
    let stamp = msg_stamp_of(words, note);
    match msg_said(note, key) {
        _ if (*note).count < stamp => 0,
        SAID_LONG => (*note).imp,
        said if said < SAID_LONG => said as u32,
        _ => 0,
    }
}

/// Whether the first note at a key's place says that there is no method.
///
/// # Safety
/// The sender is open and in no call, and the words are its runtime's.
#[inline]
pub unsafe fn msg_recall_none_key(sender: *const msg_sender, words: *const u64, key: u64) -> bool {
    let note = note_of(sender, key);
    let stamp = msg_stamp_of(words, note);
    (*note).count >= stamp && msg_said(note, key) == SAID_NONE
}

/// `msg_recall_key` of a slot and a selector.
///
/// # Safety
/// The sender is open and in no call, and the words are its runtime's.
#[inline]
pub unsafe fn msg_recall_inline(
    sender: *const msg_sender,
    words: *const u64,
    slot: u32,
    sel: u32,
) -> u32 {
    if slot < SLOTS {
        msg_recall_key(sender, words, msg_key(slot, sel))
    } else {
        0
    }
}

use core::mem::{offset_of, size_of};
const _: () = assert!(size_of::<msg_note>() == 32);
const _: () = assert!(size_of::<msg_sender>() == 96 + 64 * MSG_NOTES);
const _: () = assert!(offset_of!(msg_sender, written) == 16);
const _: () = assert!(offset_of!(msg_sender, notes) == 96);
const _: () = assert!(size_of::<msg_change>() == 32);
const _: () = assert!(size_of::<msg_lookup_row>() == 12);
