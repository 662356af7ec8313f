use crate::{ClassRef, Fault, Imp, Selector};
use std::fmt;
use yeldrost_sys as sys;

/// One entry in a list for [`Locked::change_all`](crate::Locked::change_all). Each variant does what the method of its
/// name does.
#[derive(Clone, Copy, Debug, PartialEq, Eq, Hash)]
pub enum Change {
    /// As [`add`](crate::Locked::add).
    Add {
        /// The class that gets it.
        of: ClassRef,
        /// The message's name.
        selector: Selector,
        /// What it is answered by.
        imp: Imp,
    },
    /// As [`replace`](crate::Locked::replace).
    Replace {
        /// The class that it is of.
        of: ClassRef,
        /// The message's name.
        selector: Selector,
        /// What it is answered by.
        imp: Imp,
    },
    /// As [`set_imp`](crate::Locked::set_imp).
    SetImp {
        /// The class that it is of.
        of: ClassRef,
        /// The message's name.
        selector: Selector,
        /// What it is answered by.
        imp: Imp,
    },
    /// As [`exchange`](crate::Locked::exchange).
    Exchange {
        /// The class that it is of.
        of: ClassRef,
        /// The message's name.
        selector: Selector,
        /// The class of the other method.
        other: ClassRef,
        /// The other message's name.
        other_selector: Selector,
    },
    /// As [`make_class`](crate::Locked::make_class).
    MakeClass {
        /// The class's number.
        number: u32,
        /// The number of the class above it.
        superclass: u32,
    },
    /// As [`make_root_class`](crate::Locked::make_root_class).
    MakeRootClass {
        /// The class's number.
        number: u32,
    },
    /// As [`remove`](crate::Locked::remove).
    Remove {
        /// The class that it is of.
        of: ClassRef,
        /// The message's name.
        selector: Selector,
    },
    /// As [`dispose_class`](crate::Locked::dispose_class).
    DisposeClass {
        /// The class's number.
        number: u32,
    },
    /// As [`attach`](crate::Locked::attach) of one method: it stands before the one that is there.
    Cover {
        /// The class that it is of.
        of: ClassRef,
        /// The message's name.
        selector: Selector,
        /// What it is answered by.
        imp: Imp,
    },
}

fn of_method(kind: u32, of: ClassRef, selector: Selector) -> sys::msg_change {
    sys::msg_change {
        kind,
        number: of.number,
        meta: of.meta.into(),
        sel: selector.get(),
        ..sys::msg_change::default()
    }
}

fn with_imp(kind: u32, of: ClassRef, selector: Selector, imp: Imp) -> sys::msg_change {
    sys::msg_change {
        imp: imp.get(),
        ..of_method(kind, of, selector)
    }
}

fn of_class(kind: u32, number: u32, superclass: u32) -> sys::msg_change {
    sys::msg_change {
        kind,
        number,
        other: superclass,
        ..sys::msg_change::default()
    }
}

impl Change {
    // The change that a row means which takes a change back.
    pub(crate) fn of_row(row: &sys::msg_change) -> Option<Change> {
        let number = row.number;
        let of = ClassRef {
            number,
            meta: row.meta == 1,
        };
        Some(match row.kind {
            sys::MSG_REPLACES => Change::Replace {
                of,
                selector: Selector::new(row.sel)?,
                imp: Imp::new(row.imp)?,
            },
            sys::MSG_REMOVES => Change::Remove {
                of,
                selector: Selector::new(row.sel)?,
            },
            sys::MSG_COVERS => Change::Cover {
                of,
                selector: Selector::new(row.sel)?,
                imp: Imp::new(row.imp)?,
            },
            sys::MSG_MAKES_CLASS => Change::MakeClass {
                number,
                superclass: row.other,
            },
            sys::MSG_MAKES_ROOT_CLASS => Change::MakeRootClass { number },
            sys::MSG_DISPOSES_CLASS => Change::DisposeClass { number },
            _ => return None,
        })
    }

    pub(crate) fn row(self) -> sys::msg_change {
        match self {
            Change::Add { of, selector, imp } => with_imp(sys::MSG_ADDS, of, selector, imp),
            Change::Replace { of, selector, imp } => with_imp(sys::MSG_REPLACES, of, selector, imp),
            Change::SetImp { of, selector, imp } => with_imp(sys::MSG_SETS_IMP, of, selector, imp),
            Change::Exchange {
                of,
                selector,
                other,
                other_selector,
            } => sys::msg_change {
                other: other.number,
                other_meta: other.meta.into(),
                other_sel: other_selector.get(),
                ..of_method(sys::MSG_EXCHANGES, of, selector)
            },
            Change::MakeClass { number, superclass } => {
                of_class(sys::MSG_MAKES_CLASS, number, superclass)
            }
            Change::MakeRootClass { number } => of_class(sys::MSG_MAKES_ROOT_CLASS, number, 0),
            Change::Remove { of, selector } => of_method(sys::MSG_REMOVES, of, selector),
            Change::DisposeClass { number } => of_class(sys::MSG_DISPOSES_CLASS, number, 0),
            Change::Cover { of, selector, imp } => with_imp(sys::MSG_COVERS, of, selector, imp),
        }
    }
}

/// Why a list of changes or of lookups was refused. Nothing has changed by it.
#[derive(Clone, Copy, Debug, PartialEq, Eq, Hash)]
pub struct Refused {
    /// Why.
    pub fault: Fault,
    /// Which change or lookup was refused, from 0. None if the runtime isn't open.
    pub place: Option<usize>,
}

impl Refused {
    pub(crate) fn of(fault: Fault, place: usize) -> Refused {
        Refused {
            fault,
            place: Some(place).filter(|_| fault != Fault::Closed),
        }
    }
}

impl From<Refused> for Fault {
    fn from(it: Refused) -> Fault {
        it.fault
    }
}

impl fmt::Display for Refused {
    fn fmt(&self, f: &mut fmt::Formatter<'_>) -> fmt::Result {
        match self.place {
            Some(place) => write!(f, "place {place}: {}", self.fault),
            None => self.fault.fmt(f),
        }
    }
}

impl std::error::Error for Refused {
    fn source(&self) -> Option<&(dyn std::error::Error + 'static)> {
        Some(&self.fault)
    }
}
