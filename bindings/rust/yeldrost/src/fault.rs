use std::fmt;
use yeldrost_sys as sys;

/// Why a call was refused. Nothing has changed by it.
#[derive(Clone, Copy, Debug, PartialEq, Eq, Hash)]
#[non_exhaustive]
pub enum Fault {
    /// A change names a class that isn't made, or a number that is too large.
    NoSuchClass,
    /// The implementation's number is 0, which no [`Imp`](crate::Imp) has.
    NoSuchImp,
    /// The class has the method itself.
    MethodPresent,
    /// No such method is found.
    NoMethod,
    /// 2^48 changes, 2^32 methods or 2^32 - 1 texts.
    Limit,
    /// No memory for the change.
    ChangeMemory,
    /// The class is made already.
    DuplicateClass,
    /// A class is below it.
    ClassInUse,
    /// The runtime was closed.
    Closed,
    /// A question or a find names a class number that isn't below `class_count`.
    NoClass,
    /// As many senders as the config says are open.
    NoSender,
    /// No memory.
    NoMemory,
    /// A field of the config is beyond its most.
    BadConfig,
    /// The sender is of another runtime. No call of the library was made.
    OtherRuntime,
    /// Another number: one that this crate doesn't know, or a fault that none of its calls gives cause for.
    Unknown(u32),
}

// Each fault with its number.
const NUMBERS: [(Fault, u32); 13] = [
    (Fault::NoSuchClass, sys::MSG_NO_SUCH_CLASS),
    (Fault::NoSuchImp, sys::MSG_NO_SUCH_IMP),
    (Fault::MethodPresent, sys::MSG_METHOD_PRESENT),
    (Fault::NoMethod, sys::MSG_NO_METHOD),
    (Fault::Limit, sys::MSG_LIMIT),
    (Fault::ChangeMemory, sys::MSG_CHANGE_MEMORY),
    (Fault::DuplicateClass, sys::MSG_DUPLICATE_CLASS),
    (Fault::ClassInUse, sys::MSG_CLASS_IN_USE),
    (Fault::Closed, sys::MSG_CLOSED),
    (Fault::NoClass, sys::MSG_NO_CLASS),
    (Fault::NoSender, sys::MSG_NO_SENDER),
    (Fault::NoMemory, sys::MSG_NO_MEMORY),
    (Fault::BadConfig, sys::MSG_BAD_CONFIG),
];

impl Fault {
    pub(crate) fn of(answer: u32) -> Result<(), Fault> {
        if answer == sys::MSG_DONE {
            return Ok(());
        }
        let known = NUMBERS.iter().find(|it| it.1 == answer);
        Err(known.map_or(Fault::Unknown(answer), |it| it.0))
    }

    /// Nothing if the library says that there is none.
    pub(crate) fn or_none<T>(answer: u32, found: T) -> Result<Option<T>, Fault> {
        match answer {
            sys::MSG_NONE | sys::MSG_MISSED => Ok(None),
            _ => Fault::of(answer).map(|()| Some(found)),
        }
    }

    /// Its number in `msg_runtime.h`; 0 for [`Fault::OtherRuntime`], which has none there.
    pub fn number(self) -> u32 {
        let known = NUMBERS.iter().find(|it| it.0 == self);
        match self {
            Fault::Unknown(number) => number,
            _ => known.map_or(0, |it| it.1),
        }
    }

    fn text(self) -> &'static str {
        match self {
            Fault::NoSuchClass => "no such class, or it isn't made",
            Fault::NoSuchImp => "an implementation's number is 0",
            Fault::MethodPresent => "the class has the method",
            Fault::NoMethod => "no such method",
            Fault::Limit => "as many changes or methods as there may be",
            Fault::ChangeMemory => "no memory for the change",
            Fault::DuplicateClass => "the class is made already",
            Fault::ClassInUse => "a class is below it",
            Fault::Closed => "a handle isn't open",
            Fault::NoClass => "no such class number",
            Fault::NoSender => "as many senders are open as the config says",
            Fault::NoMemory => "no memory",
            Fault::BadConfig => "the config asks for too much",
            Fault::OtherRuntime => "the sender is of another runtime",
            // of a handle opened twice, a selector 0, a list in numbers, and of msg_process.h
            Fault::Unknown(
                sys::MSG_ARGUMENT_COUNT
                | sys::MSG_ALREADY_OPEN
                | sys::MSG_NO_SELECTOR
                | sys::MSG_BAD_CHANGE
                | sys::MSG_NO_ROOM
                | sys::MSG_LOCK_HELD,
            ) => "a fault that no call of this crate gives cause for",
            Fault::Unknown(_) => "a fault that this crate doesn't know",
        }
    }
}

impl fmt::Display for Fault {
    fn fmt(&self, f: &mut fmt::Formatter<'_>) -> fmt::Result {
        match self {
            Fault::Unknown(number) => write!(f, "{}: {number}", self.text()),
            _ => f.write_str(self.text()),
        }
    }
}

impl std::error::Error for Fault {}
