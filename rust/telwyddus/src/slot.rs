//! What all objects have in common: a slot that is freed at the end, and calls that give bytes.

use crate::error::{done, Error, Result};

/// Makes the type of an object: a slot, which is freed when the value is dropped.
///
/// The library takes an object out of its slot and puts it back in each call, also in those that only look. So each
/// method of such a type takes `&mut self`. Slots are independent of each other, and a slot may go to another thread.
macro_rules! object {
    ($(#[$doc:meta])* $name:ident, $free:ident) => {
        $(#[$doc])*
        pub struct $name {
            pub(crate) slot: crate::ffi::Slot,
        }

        // SAFETY: The library has no state besides its slots, and no slot belongs to a thread ("THREADS" of the header).
        unsafe impl Send for $name {}

        impl Drop for $name {
            fn drop(&mut self) {
                // SAFETY: The slot is empty or holds the object, and is in nobody else's hands.
                unsafe { crate::ffi::$free(&mut self.slot) };
            }
        }

        impl std::fmt::Debug for $name {
            fn fmt(&self, to: &mut std::fmt::Formatter<'_>) -> std::fmt::Result {
                to.write_str(stringify!($name))
            }
        }
    };
}
pub(crate) use object;

const TOO_SHORT: u32 = 10;

/// The bytes or words of a call that says how many there are. It is asked for the length first.
pub(crate) fn taken<T: Copy + Default>(mut call: impl FnMut(*mut T, usize, *mut usize) -> u32) -> Result<Vec<T>> {
    let mut length = 0;
    let mut none = T::default();
    match call(&mut none, 0, &mut length) {
        0 => return Ok(Vec::new()),
        TOO_SHORT => {}
        code => return Err(Error::of(code)),
    }
    let mut out = vec![T::default(); length];
    done(call(out.as_mut_ptr(), out.len(), &mut length))?;
    out.truncate(length);
    Ok(out)
}

/// The place of a drive.
#[derive(Debug, Clone, Copy, PartialEq, Eq, Hash)]
pub enum Bay {
    /// Bay 0, drive A of a PC.
    Zero = 0,
    /// Bay 1, drive B of a PC.
    One = 1,
}

/// All that a medium is, except its cells.
#[derive(Debug, Clone, Copy, PartialEq, Eq)]
pub struct Shape {
    /// How many words of 16 cells a track has.
    pub words: u16,
    pub kilobits: u16,
    pub cylinders: u8,
    pub heads: u8,
    pub is_protected: bool,
}

impl Shape {
    pub(crate) fn of(is: crate::ffi::Shape) -> Self {
        Shape { words: is.words, kilobits: is.kilobits, cylinders: is.cylinders, heads: is.heads, is_protected: is.is_protected != 0 }
    }
}
