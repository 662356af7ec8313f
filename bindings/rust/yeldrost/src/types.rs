use yeldrost_sys as sys;

/// The first type of a text, as GCC's `@encode` spells types.
#[derive(Clone, Copy, Debug, PartialEq, Eq)]
pub struct EncodedType {
    /// In bytes.
    pub size: u64,
    /// In bytes.
    pub align: u64,
    /// The place behind it in the text.
    pub end: usize,
}

/// A member of a structure.
#[derive(Clone, Copy, Debug, PartialEq, Eq)]
pub struct EncodedMember {
    /// The place of its type in the text, behind its name.
    pub begin: usize,
    /// The place behind it.
    pub end: usize,
    /// The first bit that it takes.
    pub first: u64,
    /// The bit behind the last that it takes.
    pub last: u64,
    /// In bytes.
    pub align: u64,
}

/// The first type of a text.
#[must_use]
pub fn first_type(text: &[u8]) -> EncodedType {
    let (mut size, mut align) = (0, 0);
    // SAFETY: a slice, and places of this function's.
    let end = unsafe { sys::msg_type_first(text.as_ptr(), text.len(), &mut size, &mut align) };
    EncodedType { size, align, end }
}

/// Returns the first member of a text. `before` is the bit at which the members before it end, and 0
/// for a union. None if the structure or the text ends there.
#[must_use]
pub fn next_member(text: &[u8], before: u64) -> Option<EncodedMember> {
    let (mut begin, mut end) = (0, 0);
    let (mut first, mut last, mut align) = (0, 0, 0);
    // SAFETY: a slice, and places of this function's.
    let answer = unsafe {
        sys::msg_type_member(
            text.as_ptr(),
            text.len(),
            before,
            &mut begin,
            &mut end,
            &mut first,
            &mut last,
            &mut align,
        )
    };
    (answer == 0).then_some(EncodedMember {
        begin,
        end,
        first,
        last,
        align,
    })
}
