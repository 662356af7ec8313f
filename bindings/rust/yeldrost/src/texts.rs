use crate::Fault;
use std::num::NonZeroU32;
use yeldrost_sys as sys;

/// Texts of any bytes with numbers, from 1 in the order in which they first came: names of selectors, or of classes.
/// They may go to another thread (`Send`); a lock around them is the caller's.
pub struct Texts(sys::msg_texts);

// SAFETY: the header lets a handle go to another thread by something that orders memory, as each way to send a value
// does. The pointer in it keeps it from being Sync.
unsafe impl Send for Texts {}

impl std::fmt::Debug for Texts {
    fn fmt(&self, f: &mut std::fmt::Formatter<'_>) -> std::fmt::Result {
        f.debug_struct("Texts").finish_non_exhaustive()
    }
}

// SAFETY of the calls below: the handle is of msg_texts_open and in no other call (`&mut`), and the pointers are those
// of slices and of places of this function's.
impl Texts {
    /// No texts yet.
    pub fn open() -> Result<Texts, Fault> {
        let mut handle = sys::MSG_TEXTS_INIT;
        Fault::of(unsafe { sys::msg_texts_open(&mut handle) })?;
        Ok(Texts(handle))
    }

    /// The text's number: of one that is new the next.
    pub fn intern(&mut self, text: &[u8]) -> Result<NonZeroU32, Fault> {
        let mut number = 0;
        Fault::of(unsafe {
            sys::msg_texts_intern(&mut self.0, text.as_ptr(), text.len(), &mut number)
        })?;
        NonZeroU32::new(number).ok_or(Fault::Unknown(sys::MSG_NONE))
    }

    /// The text's number, if it has one.
    pub fn find(&mut self, text: &[u8]) -> Result<Option<NonZeroU32>, Fault> {
        let mut number = 0;
        let answer =
            unsafe { sys::msg_texts_find(&mut self.0, text.as_ptr(), text.len(), &mut number) };
        Ok(Fault::or_none(answer, number)?.and_then(NonZeroU32::new))
    }

    /// The text of a number, if there is one.
    pub fn text(&mut self, number: u32) -> Result<Option<Vec<u8>>, Fault> {
        let (mut text, mut length) = (Vec::new(), 0);
        loop {
            let answer = unsafe {
                sys::msg_texts_text(
                    &mut self.0,
                    number,
                    text.as_mut_ptr(),
                    text.len(),
                    &mut length,
                )
            };
            match Fault::or_none(answer, length)? {
                Some(length) if length != text.len() => text.resize(length, 0),
                found => return Ok(found.map(|_| text)),
            }
        }
    }

    /// Counts its colons, which are the arguments that a selector of this name takes.
    pub fn colons(&mut self, number: u32) -> Result<Option<usize>, Fault> {
        let mut count = 0;
        let answer = unsafe { sys::msg_texts_colons(&mut self.0, number, &mut count) };
        Fault::or_none(answer, count)
    }
}

impl Drop for Texts {
    fn drop(&mut self) {
        unsafe { sys::msg_texts_close(&mut self.0) };
    }
}
