//! A host in Rust: safe calls over the proved static library. Nothing compares these declarations with the library's.
use std::ffi::c_void;
use std::sync::Mutex;

#[repr(C)]
struct Handle {
    at: *mut c_void,
    open: bool,
}

/// A sender's handle, with what it has noted. The library says how many bytes that is.
#[repr(C)]
struct SenderHandle {
    handle: Handle,
    written: [bool; 64],
    unused: [u64; 2],
    notes: [Note; 8192],
    second_notes: [Note; 8192],
}

#[repr(C)]
#[derive(Clone, Copy)]
struct Note {
    word: u64,
    count: u64,
    imp: u32,
    parity: u32,
    stamp: u64,
}

/// A method of a class that is made.
#[repr(C)]
#[derive(Clone, Copy)]
pub struct Method {
    pub sel: u32,
    pub imp: u32,
}

/// How much a runtime has room for; 0 is the default.
#[repr(C)]
#[derive(Default)]
pub struct Config {
    pub classes: u32,
    pub senders: u32,
    pub arrays: [u32; 9],
}

const BLANK: Note = Note { word: 0, count: 0, imp: 0, parity: 0, stamp: 0 };

const CLOSED: Handle = Handle { at: std::ptr::null_mut(), open: false };
const DONE: u32 = 0;
const MISSED: u32 = 71;

unsafe extern "C" {
    fn msg_open_words(runtime: *mut Handle, config: *const u32, words: usize) -> u32;
    fn msg_close(runtime: *mut Handle) -> u32;
    fn msg_make_class(runtime: *mut Handle, class: u32, superclass: u32) -> u32;
    fn msg_make_root_class(runtime: *mut Handle, class: u32) -> u32;
    fn msg_attach(runtime: *mut Handle, class: u32, methods: *const Method, count: usize, class_methods: *const Method, class_count: usize) -> u32;
    fn msg_replace(runtime: *mut Handle, class: u32, meta: bool, sel: u32, imp: u32) -> u32;
    fn msg_sender_open(runtime: *mut Handle, sender: *mut SenderHandle) -> u32;
    fn msg_sender_close(runtime: *mut Handle, sender: *mut SenderHandle) -> u32;
    fn msg_sender_size() -> usize;
    fn msg_probe(sender: *mut SenderHandle, class: u32, meta: bool, sel: u32, imp: *mut u32) -> u32;
    fn msg_fill(runtime: *mut Handle, sender: *mut SenderHandle, class: u32, meta: bool, sel: u32, imp: *mut u32) -> u32;
}

fn answer<T>(fault: u32, value: T) -> Result<T, u32> {
    if fault == DONE { Ok(value) } else { Err(fault) }
}

/// The runtime, behind its lock: a handle is in one call at a time.
pub struct Runtime {
    raw: Mutex<Handle>,
}

// SAFETY: a handle may go to another thread, ordered by the lock.
unsafe impl Send for Runtime {}
unsafe impl Sync for Runtime {}

impl Runtime {
    pub fn open(config: &Config) -> Result<Runtime, u32> {
        let mut raw = CLOSED;
        // SAFETY: a handle, and as many words as the config has. So it is in each call below: pointers that come from references.
        let fault = unsafe { msg_open_words(&mut raw, std::ptr::from_ref(config).cast(), size_of::<Config>() / 4) };
        answer(fault, Runtime { raw: Mutex::new(raw) })
    }

    /// Makes a class with its methods, below a superclass or as a root class.
    pub fn make(&self, class: u32, superclass: Option<u32>, methods: &[Method], class_methods: &[Method]) -> Result<(), u32> {
        let raw = &mut *self.raw.lock().unwrap();
        let fault = match superclass {
            Some(superclass) => unsafe { msg_make_class(raw, class, superclass) },
            None => unsafe { msg_make_root_class(raw, class) },
        };
        answer(fault, ())?;
        answer(unsafe { msg_attach(raw, class, methods.as_ptr(), methods.len(), class_methods.as_ptr(), class_methods.len()) }, ())
    }

    pub fn replace(&self, class: u32, sel: u32, imp: u32) -> Result<(), u32> {
        answer(unsafe { msg_replace(&mut *self.raw.lock().unwrap(), class, false, sel, imp) }, ())
    }

    /// By its lifetime the sender goes to calls on this runtime alone, and is closed before it.
    pub fn sender(&self) -> Result<Sender<'_>, u32> {
        assert_eq!(size_of::<SenderHandle>(), unsafe { msg_sender_size() });
        let notes = [BLANK; 8192];
        let (written, unused) = ([false; 64], [0; 2]);
        let mut raw =
            Box::new(SenderHandle { handle: CLOSED, written, unused, notes, second_notes: notes });
        let fault = unsafe { msg_sender_open(&mut *self.raw.lock().unwrap(), &mut *raw) };
        answer(fault, ())?;
        Ok(Sender { runtime: self, raw })
    }
}

impl Drop for Runtime {
    fn drop(&mut self) {
        unsafe { msg_close(self.raw.get_mut().unwrap()) };
    }
}

pub struct Sender<'r> {
    runtime: &'r Runtime,
    raw: Box<SenderHandle>,
}

// SAFETY: as of a runtime. Its calls take `&mut self`, so it needs no lock.
unsafe impl Send for Sender<'_> {}

impl Sender<'_> {
    pub fn find(&mut self, class: u32, sel: u32) -> Result<usize, u32> {
        let mut imp = 0;
        let mut fault = unsafe { msg_probe(&mut *self.raw, class, false, sel, &mut imp) };
        if fault == MISSED {
            fault = unsafe { msg_fill(&mut *self.runtime.raw.lock().unwrap(), &mut *self.raw, class, false, sel, &mut imp) };
        }
        answer(fault, imp as usize)
    }
}

impl Drop for Sender<'_> {
    fn drop(&mut self) {
        unsafe { msg_sender_close(&mut *self.runtime.raw.lock().unwrap(), &mut *self.raw) };
    }
}

// The host's own numbers: classes from 0, selectors and implementations from 1.
const SHAPE: u32 = 0;
const SQUARE: u32 = 1;
const TILE: u32 = 2;
const CLASSES: u32 = 3;
const AREA: u32 = 1;
const SIDES: u32 = 2;

fn main() -> Result<(), u32> {
    let methods: [fn(u32) -> u32; 4] = [|_| 404, |_| 0, |_| 4, |side| side * side];
    let too_many = Config { senders: 16_385, ..Config::default() };
    println!("too many senders: {:?}", Runtime::open(&too_many).err());
    let runtime = Runtime::open(&Config { classes: CLASSES, ..Config::default() })?;
    runtime.make(SHAPE, None, &[Method { sel: AREA, imp: 1 }, Method { sel: SIDES, imp: 2 }], &[])?;
    runtime.make(SQUARE, Some(SHAPE), &[Method { sel: AREA, imp: 3 }], &[])?;
    let mut sender = runtime.sender()?;
    println!("area {}, sides {}", methods[sender.find(SQUARE, AREA)?](3), methods[sender.find(SQUARE, SIDES)?](3));
    println!("a class that isn't made: {}", methods[sender.find(TILE, AREA)?](3));
    println!("a class that isn't there: {:?}", sender.find(CLASSES, AREA).err());
    println!("a class that is made already: {:?}", runtime.make(SQUARE, Some(SHAPE), &[], &[]).err());
    std::thread::scope(|scope| {
        for _ in 0..4 {
            let mut sender = runtime.sender().unwrap();
            let methods = &methods;
            scope.spawn(move || (0..100_000).for_each(|_| assert!([0, 9].contains(&methods[sender.find(SQUARE, AREA).unwrap()](3)))));
        }
        for round in 0..1000 {
            runtime.replace(SQUARE, AREA, if round % 2 == 0 { 1 } else { 3 }).unwrap();
        }
    });
    println!("no implementation: {:?}", runtime.replace(SQUARE, AREA, 0).err());
    Ok(())
}
