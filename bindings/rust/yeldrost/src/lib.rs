//! Safe calls of Yeldrost, message dispatch as Objective-C's runtime does it, with machine-checked proofs.
//!
//! A [`Runtime`] is shared by its clones and its senders. A [`Sender`] is what one thread looks methods up by: it is
//! `Send` and not `Sync`. [`Runtime::lock`] gives what may be asked and changed under the runtime's lock. Numbers of
//! classes, selectors and implementations are the caller's; an implementation's is mostly a place in an array of
//! functions.
//!
//! ```
//! use yeldrost::{ClassRef, Config, Fault, Imp, Runtime, Selector};
//!
//! # fn main() -> Result<(), Fault> {
//! const SHAPE: u32 = 0;
//! const SIDES: Selector = Selector::new(1).unwrap();
//! let four = Imp::new(1).unwrap();
//! let runtime = Runtime::open(Config::default())?;
//! runtime.lock().make_root_class(SHAPE)?.add(ClassRef::instances_of(SHAPE), SIDES, four)?;
//! let mut sender = runtime.sender()?;
//! assert_eq!(Some(four), sender.find(ClassRef::instances_of(SHAPE), SIDES)?);
//! # Ok(())
//! # }
//! ```
#![warn(missing_docs)]
mod change;
mod fault;
mod locked;
mod number;
mod sender;
mod texts;
mod types;

pub use change::{Change, Refused};
pub use fault::Fault;
pub use locked::Locked;
pub use number::{Imp, Selector};
pub use sender::{Probed, Sender};
use std::sync::{Arc, Mutex, MutexGuard, PoisonError};
pub use sys::{msg_config as Config, msg_report_row as Report};
pub use texts::Texts;
pub use types::{first_type, next_member, EncodedMember, EncodedType};
use yeldrost_sys as sys;

/// A class, as its instances find methods; or its metaclass, as the class itself finds them.
#[derive(Clone, Copy, Debug, PartialEq, Eq, Hash)]
pub struct ClassRef {
    /// The class's number, from 0, which the caller gives.
    pub number: u32,
    /// Whether it is the metaclass.
    pub meta: bool,
}

impl ClassRef {
    /// The class, as its instances find methods.
    pub const fn instances_of(number: u32) -> ClassRef {
        ClassRef {
            number,
            meta: false,
        }
    }

    /// The metaclass, as the class itself finds methods.
    pub const fn class_itself(number: u32) -> ClassRef {
        ClassRef { number, meta: true }
    }

    /// The number of class and metaclass in one: twice the class's, and one more for the metaclass. No class that a
    /// runtime knows has a number whose slot isn't one of 32 bits.
    const fn slot(self) -> u32 {
        self.number.wrapping_mul(2).wrapping_add(self.meta as u32)
    }

    /// Whether the slot is this one's alone.
    const fn has_slot(self) -> bool {
        self.number < sys::SLOTS / 2
    }
}

impl From<sys::msg_class> for ClassRef {
    fn from(it: sys::msg_class) -> ClassRef {
        ClassRef {
            number: it.number,
            meta: it.meta,
        }
    }
}

/// A method of a list that is attached to a class, or one that a class has.
#[derive(Clone, Copy, Debug, PartialEq, Eq)]
pub struct Method {
    /// The message's name.
    pub selector: Selector,
    /// What it is answered by.
    pub imp: Imp,
}

impl Method {
    /// No method has a selector or an implementation of the number 0.
    fn of_row(row: &sys::msg_method) -> Option<Method> {
        Some(Method {
            selector: Selector::new(row.sel)?,
            imp: Imp::new(row.imp)?,
        })
    }
}

/// What a runtime and its senders share. It is freed with the last of them.
#[derive(Debug)]
struct Shared {
    handle: Mutex<Handle>,
    /// The shared words, which lie there as long as the runtime or a sender is open.
    words: Words,
}

/// A sender's recall loads them.
#[derive(Debug)]
struct Words(*const u64);

// SAFETY: they are loaded atomically.
unsafe impl Send for Words {}
unsafe impl Sync for Words {}

struct Handle(sys::msg_runtime);

// SAFETY: the header lets a handle go to another thread by something that orders memory, which the mutex around it is.
unsafe impl Send for Handle {}

impl std::fmt::Debug for Handle {
    fn fmt(&self, f: &mut std::fmt::Formatter<'_>) -> std::fmt::Result {
        f.debug_struct("Handle")
            .field("open", &self.0.open)
            .finish()
    }
}

impl Shared {
    /// A panic under the lock leaves the runtime as its last call did.
    fn held(&self) -> MutexGuard<'_, Handle> {
        self.handle.lock().unwrap_or_else(PoisonError::into_inner)
    }
}

impl Drop for Shared {
    fn drop(&mut self) {
        let handle = self
            .handle
            .get_mut()
            .unwrap_or_else(PoisonError::into_inner);
        // SAFETY: a handle of msg_open. That it may be closed already is no harm.
        unsafe { sys::msg_close(&mut handle.0) };
    }
}

/// A runtime: classes, their methods, and the caches of its senders. Its clones are the same one. It is closed with
/// the last of its clones and senders, or by [`Runtime::close`].
#[derive(Clone, Debug)]
pub struct Runtime(Arc<Shared>);

impl Runtime {
    /// A runtime without classes.
    pub fn open(config: Config) -> Result<Runtime, Fault> {
        let mut handle = sys::MSG_RUNTIME_INIT;
        // SAFETY: a closed handle and a config.
        Fault::of(unsafe { sys::msg_open(&mut handle, &config) })?;
        let mut words = std::ptr::null();
        // SAFETY: an open handle.
        Fault::of(unsafe { sys::msg_words(&mut handle, &mut words) })?;
        Ok(Runtime(Arc::new(Shared {
            handle: Mutex::new(Handle(handle)),
            words: Words(words),
        })))
    }

    /// The runtime's lock, held until what is given is dropped.
    ///
    /// A thread that holds it calls no method of [`Runtime`] that takes the lock: `lock`, `lookup`, `superclass`,
    /// `holder`, `sender` and `close`. Nor does it open or drop a sender, or find by one. It would wait for itself. The
    /// calls of [`Locked`] are safe.
    ///
    /// The guard of `runtime.lock()...` lives until its statement ends. So the lock is held in the call's arguments,
    /// in all of a `println!` or an `assert_eq!`, and on the other side of a `<`. It is held in the block of `for`,
    /// `while let`, `if let` and `match`, too. Before edition 2024, a function's last expression holds it while the
    /// locals are dropped, and a [`Sender`] among them waits for it. In each case store the result in a `let` first:
    ///
    /// ```
    /// # use yeldrost::{Config, Runtime};
    /// # let runtime = Runtime::open(Config::default()).unwrap();
    /// let made = runtime.lock().make_root_class(0).map(|_| ());
    /// if made.is_ok() {
    ///     runtime.sender().unwrap();
    /// }
    /// ```
    pub fn lock(&self) -> Locked<'_> {
        Locked::of(&self.0)
    }

    /// A sender that has seen all changes.
    pub fn sender(&self) -> Result<Sender, Fault> {
        Sender::of(&self.0)
    }

    /// What is found after all changes. It notes nothing.
    pub fn lookup(&self, of: ClassRef, selector: Selector) -> Result<Option<Imp>, Fault> {
        self.lock().lookup(of, selector)
    }

    /// As [`Locked::superclass`].
    pub fn superclass(&self, of: ClassRef) -> Result<Option<ClassRef>, Fault> {
        self.lock().superclass(of)
    }

    /// As [`Locked::holder`].
    pub fn holder(&self, of: ClassRef, selector: Selector) -> Result<Option<ClassRef>, Fault> {
        self.lock().holder(of, selector)
    }

    /// Closes it for all its clones. Its senders find what they have noted or cached, and else return
    /// [`Fault::Closed`].
    pub fn close(&self) -> Result<(), Fault> {
        // SAFETY: a handle of msg_open, under its lock.
        Fault::of(unsafe { sys::msg_close(&mut self.0.held().0) })
    }
}
