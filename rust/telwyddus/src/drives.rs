//! Media that go into drives and come out.

use std::fmt;

use crate::error::{done, Error, Result};
use crate::ffi::Slot;
use crate::Tray;

/// A medium that wasn't put in: why, and the tray in which it still is.
#[derive(Debug)]
pub struct NotInserted {
    pub error: Error,
    pub tray: Tray,
}

impl fmt::Display for NotInserted {
    fn fmt(&self, to: &mut fmt::Formatter<'_>) -> fmt::Result {
        self.error.fmt(to)
    }
}

impl std::error::Error for NotInserted {}

impl From<NotInserted> for Error {
    fn from(refused: NotInserted) -> Self {
        refused.error
    }
}

/// Puts the medium of a tray in by a call. The tray is freed if that is done.
pub(crate) fn inserted(mut tray: Tray, call: impl FnOnce(*mut Slot) -> u32) -> std::result::Result<(), NotInserted> {
    match done(call(&mut tray.slot)) {
        Ok(()) => Ok(()),
        Err(error) => Err(NotInserted { error, tray }),
    }
}

/// Takes a medium out by a call that fills a tray.
pub(crate) fn ejected(call: impl FnOnce(*mut Slot) -> u32) -> Result<Tray> {
    let mut tray = Tray::empty();
    done(call(&mut tray.slot))?;
    Ok(tray)
}
