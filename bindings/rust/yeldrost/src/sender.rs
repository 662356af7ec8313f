use crate::{ClassRef, Fault, Imp, Refused, Selector, Shared};
use std::alloc::{alloc_zeroed, Layout};
use std::sync::Arc;
use yeldrost_sys as sys;

/// What [`Sender::probe`] finds.
#[derive(Clone, Copy, Debug, PartialEq, Eq)]
pub enum Probed {
    /// The implementation.
    Found(Imp),
    /// There is no method, which is forwarding.
    NoMethod,
    /// It is neither noted nor cached: [`Locked::fill`](crate::Locked::fill) looks it up.
    Missed,
}

/// What one thread looks methods up by. It *notes* what it finds in a cache of its own. What is *cached* lies in the
/// cache that all senders share. A class's *stamp* is a count of changes: no change after so many has affected the
/// class. From a change of the class until its next fill it is 2^64 - 1: then nothing noted counts.
///
/// It may go to another thread (`Send`), and isn't shared by two (not `Sync`):
///
/// ```compile_fail
/// fn is_sync<T: Sync>() {}
/// is_sync::<yeldrost::Sender>();
/// ```
///
/// It may outlive its runtime's close.
pub struct Sender {
    raw: Box<sys::msg_sender>,
    shared: Arc<Shared>,
}

// SAFETY: the header lets a handle go to another thread by something that orders memory, as each way to send a value
// does. The pointer in it keeps it from being Sync.
unsafe impl Send for Sender {}

// SAFETY of the calls below: the handle is of msg_sender_open, in no other call (`&mut`), of the runtime that it is
// given with, whose words lie there since the sender is open, and the runtime's handle is under its lock.
impl Sender {
    pub(crate) fn of(shared: &Arc<Shared>) -> Result<Sender, Fault> {
        let mut raw = closed()?;
        Fault::of(unsafe { sys::msg_sender_open(&mut shared.held().0, &mut *raw) })?;
        Ok(Sender {
            raw,
            shared: shared.clone(),
        })
    }

    /// Returns the implementation of a method, or `None` if there is none. It sees every change that had returned
    /// when the call began.
    #[inline]
    pub fn find(&mut self, of: ClassRef, selector: Selector) -> Result<Option<Imp>, Fault> {
        match self.recall(of, selector) {
            None => self.find_called(of, selector),
            noted => Ok(noted),
        }
    }

    /// The same by the library's calls alone: a probe, and after a miss a fill under the lock.
    #[cold]
    pub fn find_called(&mut self, of: ClassRef, selector: Selector) -> Result<Option<Imp>, Fault> {
        let mut imp = 0;
        let (number, meta, sel) = (of.number, of.meta, selector.get());
        let mut answer = unsafe { sys::msg_probe(&mut *self.raw, number, meta, sel, &mut imp) };
        if answer == sys::MSG_MISSED {
            let mut runtime = self.shared.held();
            answer = unsafe {
                sys::msg_fill(&mut runtime.0, &mut *self.raw, number, meta, sel, &mut imp)
            };
        }
        Fault::of(answer)?;
        Ok(Imp::new(imp))
    }

    /// Several as one: all at one version, which the sender has then seen. An error has the place of the lookup that
    /// isn't asked.
    pub fn find_all(
        &mut self,
        lookups: &[(ClassRef, Selector)],
    ) -> Result<Vec<Option<Imp>>, Refused> {
        let rows: Vec<_> = lookups.iter().map(|&(of, sel)| row(of, sel)).collect();
        let (mut imps, mut place) = (vec![0; rows.len()], 0);
        let (raw, count, into) = (&mut *self.raw, rows.len(), imps.as_mut_ptr());
        let mut answer =
            unsafe { sys::msg_probe_all(raw, rows.as_ptr(), count, into, count, &mut place) };
        if answer == sys::MSG_MISSED {
            let mut held = self.shared.held();
            answer = unsafe {
                sys::msg_fill_all(
                    &mut held.0,
                    raw,
                    rows.as_ptr(),
                    count,
                    into,
                    count,
                    &mut place,
                )
            };
        }
        Fault::of(answer).map_err(|fault| Refused::of(fault, place))?;
        Ok(imps.into_iter().map(Imp::new).collect())
    }

    /// What is noted, or else cached: the lookup after the changes that the sender has then seen. It takes no lock.
    pub fn probe(&mut self, of: ClassRef, selector: Selector) -> Result<Probed, Fault> {
        let mut imp = 0;
        let answer =
            unsafe { sys::msg_probe(&mut *self.raw, of.number, of.meta, selector.get(), &mut imp) };
        Ok(match Fault::or_none(answer, Imp::new(imp))? {
            Some(Some(imp)) => Probed::Found(imp),
            Some(None) => Probed::NoMethod,
            None => Probed::Missed,
        })
    }

    /// Returns the implementation that is noted, without a call. Each lookup has one place in the sender's cache, with
    /// room for two notes. This looks at the first, and only if no change has affected the class since. `None`: ask
    /// [`find`](Sender::find), which looks at both. Python's and C++'s `recall` is
    /// [`recall_since`](Sender::recall_since).
    #[inline]
    pub fn recall(&self, of: ClassRef, selector: Selector) -> Option<Imp> {
        let words = self.shared.words.0;
        let noted = unsafe { sys::msg_recall_inline(&*self.raw, words, of.slot(), selector.get()) };
        if of.has_slot() {
            Imp::new(noted)
        } else {
            None
        }
    }

    /// Returns what was noted after `since` changes or more, by the library's own code, which is proved. It looks at both
    /// notes. `None` if there is no such note, or for forwarding.
    pub fn recall_since(&self, of: ClassRef, selector: Selector, since: u64) -> Option<Imp> {
        let slot = 2 * of.number as usize + of.meta as usize;
        Imp::new(unsafe { sys::msg_recall(&*self.raw, slot, selector.get(), since) } as u32)
    }

    /// Whether it is noted that no method is found, without a call. As [`recall`](Sender::recall), this looks at the
    /// first note, and only if no change has affected the class since. False: ask [`find`](Sender::find).
    #[inline]
    pub fn recalls_none(&self, of: ClassRef, selector: Selector) -> bool {
        of.has_slot()
            && unsafe {
                let key = sys::msg_key(of.slot(), selector.get());
                sys::msg_recall_none_key(&*self.raw, self.shared.words.0, key)
            }
    }

    /// How many changes there are, which the sender has then seen.
    pub fn refresh(&mut self) -> Result<u64, Fault> {
        let mut count = 0;
        Fault::of(unsafe { sys::msg_refresh(&mut *self.raw, &mut count) })?;
        Ok(count)
    }

    /// No change after so many has affected the class reference. From a change of it until its next fill (a find that
    /// misses makes one) it is 2^64 - 1: then nothing noted counts. The sender has then seen all changes.
    pub fn stamp(&mut self, of: ClassRef) -> Result<u64, Fault> {
        let mut count = 0;
        Fault::of(unsafe { sys::msg_stamp(&mut *self.raw, of.number, of.meta, &mut count) })?;
        Ok(count)
    }

    /// Its handle, if it is of this runtime.
    pub(crate) fn raw_of(&mut self, shared: &Arc<Shared>) -> Result<*mut sys::msg_sender, Fault> {
        if Arc::ptr_eq(shared, &self.shared) {
            Ok(&mut *self.raw)
        } else {
            Err(Fault::OtherRuntime)
        }
    }
}

impl Drop for Sender {
    fn drop(&mut self) {
        unsafe { sys::msg_sender_close(&mut self.shared.held().0, &mut *self.raw) };
    }
}

impl std::fmt::Debug for Sender {
    fn fmt(&self, f: &mut std::fmt::Formatter<'_>) -> std::fmt::Result {
        f.debug_struct("Sender")
            .field("open", &self.raw.open)
            .finish_non_exhaustive()
    }
}

/// A lookup as the header has it.
fn row(of: ClassRef, selector: Selector) -> sys::msg_lookup_row {
    sys::msg_lookup_row {
        number: of.number,
        meta: of.meta.into(),
        sel: selector.get(),
    }
}

/// A closed sender, made in place: 512 KiB would be much of a small stack.
fn closed() -> Result<Box<sys::msg_sender>, Fault> {
    let layout = Layout::new::<sys::msg_sender>();
    // SAFETY: zero bytes are a closed sender, and the layout is that of the box.
    unsafe {
        let at = alloc_zeroed(layout);
        if at.is_null() {
            return Err(Fault::NoMemory);
        }
        Ok(Box::from_raw(at.cast()))
    }
}
