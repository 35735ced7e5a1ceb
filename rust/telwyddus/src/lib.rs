//! The diskette path of a PC/AT, simulated device step by device step: safe types over the library for C of Telwyddus.
//!
//! The header `telwyddus.h` says what each call does, and `docs/C.md` there what the controller does at each port. The
//! library's own code is proved; this crate and its calls of the header are tested alone.
//!
//! - [`Controller`] is the whole controller with two drives, for an emulator's bus.
//! - [`Machine`] is a machine with DMA, memory and IRQ 6, for test rigs of drivers.
//! - [`Tray`] is a medium outside a drive: image files, flat sector files, ImageDisk files.
//! - [`Shelf`] holds files in memory, on which the program `floppy` runs.
//! - [`Desk`] reads and writes single sectors.
//!
//! An object goes to another thread, and is used by one at a time:
//!
//! ```
//! use telwyddus::{Bay, Controller, Error, Tray};
//!
//! let mut controller = Controller::new()?;
//! controller.insert(Bay::Zero, Tray::blank(80, 500)?)?;
//! let image = std::thread::spawn(move || controller.image(Bay::Zero)).join().unwrap()?;
//! assert_eq!(image.len(), 4_000_014);
//! assert_eq!(Tray::of_image(&image[1..]).unwrap_err(), Error::BadImage);
//! # Ok::<(), Error>(())
//! ```

#![deny(missing_debug_implementations, unsafe_op_in_unsafe_fn)]

mod controller;
mod desk;
mod drives;
mod error;
mod ffi;
mod machine;
mod shelf;
mod slot;
mod tray;

pub use controller::{Controller, Lines, Signs};
pub use desk::{Desk, Key};
pub use drives::NotInserted;
pub use error::{Error, Result};
pub use machine::Machine;
pub use shelf::Shelf;
pub use slot::{Bay, Shape};
pub use tray::{Field, FlatForm, Found, Tray};

/// The version of the library that is linked: 10,000 times the first number, plus 100 times the second, plus the third.
pub fn version() -> u32 {
    // SAFETY: The call takes nothing.
    unsafe { ffi::telwyddus_version() }
}
