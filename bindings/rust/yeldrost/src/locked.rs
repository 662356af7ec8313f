use crate::{
    Change, ClassRef, Fault, Handle, Imp, Method, Refused, Report, Selector, Sender, Shared,
};
use std::sync::{Arc, MutexGuard};
use yeldrost_sys as sys;

/// The runtime's lock, held: what may be asked and changed under it. A change that is made has flushed each cache
/// that it affects before it returns; one that is refused has changed nothing.
///
/// Each call in a chain is a change of its own. If one is refused, those before it stay made. Between them other
/// threads find what is noted or cached; a find that misses waits for the lock. [`change_all`](Locked::change_all)
/// makes several as one.
#[derive(Debug)]
pub struct Locked<'r> {
    shared: &'r Arc<Shared>,
    handle: MutexGuard<'r, Handle>,
}

// SAFETY of the calls below: the handle is of msg_open and under its lock; pointers are of values that live, and
// slices' are never null, also where they are empty.
impl<'r> Locked<'r> {
    pub(crate) fn of(shared: &'r Arc<Shared>) -> Locked<'r> {
        Locked {
            shared,
            handle: shared.held(),
        }
    }

    /// How many class numbers are reserved.
    pub fn class_count(&mut self) -> Result<u32, Fault> {
        let mut count = 0;
        Fault::of(unsafe { sys::msg_class_count(&mut self.handle.0, &mut count) })?;
        Ok(count)
    }

    /// How many changes were made. A list counts as one, and an empty one not at all.
    pub fn change_count(&mut self) -> Result<u64, Fault> {
        let mut count = 0;
        Fault::of(unsafe { sys::msg_change_count(&mut self.handle.0, &mut count) })?;
        Ok(count)
    }

    /// What was done to caches since the runtime was opened.
    pub fn report(&mut self) -> Result<Report, Fault> {
        let mut report = Report::default();
        Fault::of(unsafe { sys::msg_report(&mut self.handle.0, &mut report) })?;
        Ok(report)
    }

    /// What is found after all changes. It notes nothing.
    pub fn lookup(&mut self, of: ClassRef, selector: Selector) -> Result<Option<Imp>, Fault> {
        let mut imp = 0;
        Fault::of(unsafe {
            sys::msg_lookup(
                &mut self.handle.0,
                of.number,
                of.meta,
                selector.get(),
                &mut imp,
            )
        })?;
        Ok(Imp::new(imp))
    }

    /// What stands above: above a class its superclass, above a metaclass the superclass's metaclass, and above a root's
    /// metaclass the root itself. None above a root class, and of a class that isn't made.
    pub fn superclass(&mut self, of: ClassRef) -> Result<Option<ClassRef>, Fault> {
        let mut above = sys::msg_class::default();
        let answer =
            unsafe { sys::msg_superclass(&mut self.handle.0, of.number, of.meta, &mut above) };
        Fault::or_none(answer, above.into())
    }

    /// Where the method stands that a lookup finds.
    pub fn holder(&mut self, of: ClassRef, selector: Selector) -> Result<Option<ClassRef>, Fault> {
        let mut at = sys::msg_class::default();
        let answer = unsafe {
            sys::msg_holder(
                &mut self.handle.0,
                of.number,
                of.meta,
                selector.get(),
                &mut at,
            )
        };
        Fault::or_none(answer, at.into())
    }

    /// The methods that the class or metaclass has itself, the newest first: of those of one
    /// selector a lookup finds the first.
    pub fn methods(&mut self, of: ClassRef) -> Result<Vec<Method>, Fault> {
        let rows: Vec<sys::msg_method> = self.shown(|runtime, rows, room, count| unsafe {
            sys::msg_methods(runtime, of.number, of.meta, rows, room, count)
        })?;
        Ok(rows.iter().filter_map(Method::of_row).collect())
    }

    /// The classes that are made, each after its superclass.
    pub fn classes(&mut self) -> Result<Vec<u32>, Fault> {
        self.shown(|runtime, classes, room, count| unsafe {
            sys::msg_classes(runtime, classes, room, count)
        })
    }

    /// The subclasses, theirs, and so on.
    pub fn classes_below(&mut self, number: u32) -> Result<Vec<u32>, Fault> {
        self.shown(|runtime, classes, room, count| unsafe {
            sys::msg_classes_below(runtime, number, classes, room, count)
        })
    }

    /// Makes a root class and its metaclass, without methods.
    pub fn make_root_class(&mut self, number: u32) -> Result<&mut Self, Fault> {
        self.change(|runtime| unsafe { sys::msg_make_root_class(runtime, number) })
    }

    /// Makes a class and its metaclass, without methods, below a superclass that is made.
    pub fn make_class(&mut self, number: u32, superclass: u32) -> Result<&mut Self, Fault> {
        self.change(|runtime| unsafe { sys::msg_make_class(runtime, number, superclass) })
    }

    /// Adds a method that the class doesn't have of its own.
    pub fn add(&mut self, to: ClassRef, selector: Selector, imp: Imp) -> Result<&mut Self, Fault> {
        self.change(|runtime| unsafe {
            sys::msg_add(runtime, to.number, to.meta, selector.get(), imp.get())
        })
    }

    /// Replaces the class's own method, or adds it.
    pub fn replace(
        &mut self,
        of: ClassRef,
        selector: Selector,
        imp: Imp,
    ) -> Result<&mut Self, Fault> {
        self.change(|runtime| unsafe {
            sys::msg_replace(runtime, of.number, of.meta, selector.get(), imp.get())
        })
    }

    /// Sets the implementation of the method that a lookup finds, wherever it stands.
    pub fn set_imp(
        &mut self,
        of: ClassRef,
        selector: Selector,
        imp: Imp,
    ) -> Result<&mut Self, Fault> {
        self.change(|runtime| unsafe {
            sys::msg_set_imp(runtime, of.number, of.meta, selector.get(), imp.get())
        })
    }

    /// Exchanges the implementations of the methods that two lookups find, in one step.
    pub fn exchange(
        &mut self,
        of: ClassRef,
        selector: Selector,
        other: ClassRef,
        other_selector: Selector,
    ) -> Result<&mut Self, Fault> {
        let (one, two) = (selector.get(), other_selector.get());
        self.change(|runtime| unsafe {
            sys::msg_exchange(
                runtime,
                of.number,
                of.meta,
                one,
                other.number,
                other.meta,
                two,
            )
        })
    }

    /// Attaches methods to the class and to its metaclass, as a category does: before those that are there.
    pub fn attach(
        &mut self,
        to: u32,
        methods: &[Method],
        class_methods: &[Method],
    ) -> Result<&mut Self, Fault> {
        let raw = |list: &[Method]| -> Vec<sys::msg_method> {
            list.iter()
                .map(|it| sys::msg_method {
                    sel: it.selector.get(),
                    imp: it.imp.get(),
                })
                .collect()
        };
        let (own, of_class) = (raw(methods), raw(class_methods));
        self.change(|runtime| unsafe {
            sys::msg_attach(
                runtime,
                to,
                own.as_ptr(),
                own.len(),
                of_class.as_ptr(),
                of_class.len(),
            )
        })
    }

    /// Takes away the method that the class has of its own. One that it hid counts again.
    pub fn remove(&mut self, of: ClassRef, selector: Selector) -> Result<&mut Self, Fault> {
        self.change(|runtime| unsafe {
            sys::msg_remove(runtime, of.number, of.meta, selector.get())
        })
    }

    /// Takes a class away that no class is below, with its metaclass and the methods of both.
    pub fn dispose_class(&mut self, number: u32) -> Result<&mut Self, Fault> {
        self.change(|runtime| unsafe { sys::msg_dispose_class(runtime, number) })
    }

    /// Makes several changes as one: each lookup finds what was before all of them or what is after all. The list is
    /// refused for the first that would be refused after those before it.
    pub fn change_all(&mut self, changes: &[Change]) -> Result<&mut Self, Refused> {
        let rows: Vec<sys::msg_change> = changes.iter().map(|it| it.row()).collect();
        let mut place = 0;
        let made = |runtime: *mut sys::msg_runtime| unsafe {
            sys::msg_change_all(runtime, rows.as_ptr(), rows.len(), &mut place)
        };
        self.change(made).map_err(|fault| Refused::of(fault, place))
    }

    /// As [`change_all`](Locked::change_all), and returns the list that undoes these changes.
    ///
    /// Make that list before any other change to the same methods or classes. Later it may be refused: a class can't
    /// be taken away while a class is below it. Or it is accepted, and overwrites or removes what others put there.
    /// Nothing warns you. If several tools swap one method, take the swaps back in reverse order.
    pub fn change_all_with_undo(&mut self, changes: &[Change]) -> Result<Vec<Change>, Refused> {
        let rows: Vec<sys::msg_change> = changes.iter().map(|it| it.row()).collect();
        let mut undo = Vec::new();
        let (mut undone, mut place) = (2 * rows.len(), 0);
        let answer = loop {
            undo.resize(undone, sys::msg_change::default());
            let (places, room) = (undo.as_mut_ptr(), undo.len());
            let answer = unsafe {
                sys::msg_change_all_with_undo(
                    &mut self.handle.0,
                    rows.as_ptr(),
                    rows.len(),
                    places,
                    room,
                    &mut undone,
                    &mut place,
                )
            };
            // nothing was made: so many places are wanted
            if answer != sys::MSG_NO_ROOM {
                break answer;
            }
        };
        Fault::of(answer).map_err(|fault| Refused::of(fault, place))?;
        Ok(undo[..undone].iter().filter_map(Change::of_row).collect())
    }

    /// Which lookups [`change_all`](Locked::change_all) may alter, without making the changes: those of the class
    /// references that are returned. All others stay as they are. It takes memory for all class numbers.
    pub fn reach(&mut self, changes: &[Change]) -> Result<Vec<ClassRef>, Refused> {
        let rows: Vec<sys::msg_change> = changes.iter().map(|it| it.row()).collect();
        let classes = self.class_count().map_err(|fault| Refused::of(fault, 0))?;
        let mut reached = vec![false; 2 * classes as usize];
        let mut place = 0;
        Fault::of(unsafe {
            sys::msg_reach(
                &mut self.handle.0,
                rows.as_ptr(),
                rows.len(),
                reached.as_mut_ptr(),
                reached.len(),
                &mut place,
            )
        })
        .map_err(|fault| Refused::of(fault, place))?;
        let found = (0..).zip(reached).filter(|(_, reached)| *reached);
        Ok(found
            .map(|(slot, _): (u32, bool)| ClassRef {
                number: slot / 2,
                meta: slot % 2 == 1,
            })
            .collect())
    }

    /// The lookup after all changes, which the sender has then seen, and notes.
    pub fn fill(
        &mut self,
        sender: &mut Sender,
        of: ClassRef,
        selector: Selector,
    ) -> Result<Option<Imp>, Fault> {
        let raw = sender.raw_of(self.shared)?;
        let mut imp = 0;
        Fault::of(unsafe {
            sys::msg_fill(
                &mut self.handle.0,
                raw,
                of.number,
                of.meta,
                selector.get(),
                &mut imp,
            )
        })?;
        Ok(Imp::new(imp))
    }

    /// The sender has then seen all changes.
    pub fn meet(&mut self, sender: &mut Sender) -> Result<(), Fault> {
        let raw = sender.raw_of(self.shared)?;
        Fault::of(unsafe { sys::msg_meet(&mut self.handle.0, raw) })
    }

    /// As [`meet`](Locked::meet). By calling it you promise that the sender's thread runs, and keeps, nothing it
    /// found before.
    pub fn rest(&mut self, sender: &mut Sender) -> Result<(), Fault> {
        let raw = sender.raw_of(self.shared)?;
        Fault::of(unsafe { sys::msg_rest(&mut self.handle.0, raw) })
    }

    /// Returns a count of changes: as many as every open sender had seen when it rested last, or was opened; all if
    /// none is open. Code that the first so many changes took out can be freed. You see to four things. A thread
    /// that rests keeps nothing that it found. No later change puts the code back. No thread calls what
    /// [`lookup`](Locked::lookup) or [`methods`](Locked::methods) returned before: that isn't counted. And none calls
    /// what [`recall_since`](Sender::recall_since) returned with a `since` below this count.
    pub fn seen_by_all(&mut self) -> Result<u64, Fault> {
        let mut count = 0;
        Fault::of(unsafe { sys::msg_seen_by_all(&mut self.handle.0, &mut count) })?;
        Ok(count)
    }

    /// All that a call writes, in an array as long as the call asks for.
    fn shown<T: Clone + Default>(
        &mut self,
        call: impl Fn(*mut sys::msg_runtime, *mut T, usize, *mut usize) -> u32,
    ) -> Result<Vec<T>, Fault> {
        let mut rows = Vec::new();
        let mut count = 0;
        loop {
            let answer = call(
                &mut self.handle.0,
                rows.as_mut_ptr(),
                rows.len(),
                &mut count,
            );
            if answer != sys::MSG_NO_ROOM {
                return Fault::of(answer).map(|()| rows);
            }
            // nothing was written
            rows.resize(count, T::default());
        }
    }

    fn change(
        &mut self,
        made: impl FnOnce(*mut sys::msg_runtime) -> u32,
    ) -> Result<&mut Self, Fault> {
        Fault::of(made(&mut self.handle.0)).map(|()| self)
    }
}
