use crate::drives::{ejected, inserted, NotInserted};
use crate::error::{done, Result};
use crate::ffi::{self, Slot};
use crate::slot::{object, Bay};
use crate::Tray;

object! {
    /// Single sectors: a PC/AT with its driver, and two drives without faults.
    ///
    /// ```
    /// use telwyddus::{Bay, Desk, Key, Tray};
    ///
    /// let mut desk = Desk::new()?;
    /// desk.insert(Bay::Zero, Tray::blank(2, 500)?)?;
    /// desk.acknowledge(Bay::Zero)?;
    /// desk.format(Bay::Zero, 1, 0)?;
    /// let key = Key { c: 1, h: 0, r: 7, n: 2 };
    /// desk.write(Bay::Zero, key, &[0x5A; 512], false)?;
    /// assert_eq!(desk.read(Bay::Zero, key)?, (vec![0x5A; 512], false));
    /// # Ok::<(), telwyddus::Error>(())
    /// ```
    Desk, telwyddus_disk_free
}

/// The C, H, R and N of a sector's address field. N is 1 to 6, for 256 to 8,192 bytes.
#[derive(Debug, Clone, Copy, PartialEq, Eq, Hash)]
pub struct Key {
    pub c: u8,
    pub h: u8,
    pub r: u8,
    pub n: u8,
}

impl Desk {
    /// A desk with two empty bays.
    pub fn new() -> Result<Self> {
        let mut made = Desk { slot: Slot::empty() };
        done(unsafe { ffi::telwyddus_disk_new(&mut made.slot) })?;
        Ok(made)
    }

    /// Puts a medium in. If it is refused, its tray comes back.
    pub fn insert(&mut self, bay: Bay, tray: Tray) -> std::result::Result<(), NotInserted> {
        inserted(tray, |tray| unsafe { ffi::telwyddus_disk_insert(&mut self.slot, bay as u32, tray) })
    }

    /// Takes a medium out.
    pub fn eject(&mut self, bay: Bay) -> Result<Tray> {
        ejected(|tray| unsafe { ffi::telwyddus_disk_eject(&mut self.slot, bay as u32, tray) })
    }

    /// Acknowledges the medium in a bay, and finds its rate.
    pub fn acknowledge(&mut self, bay: Bay) -> Result<()> {
        done(unsafe { ffi::telwyddus_disk_acknowledge(&mut self.slot, bay as u32) })
    }

    /// Sets the rate of an acknowledged bay, 500 or 250 kbit/s.
    pub fn set_rate(&mut self, bay: Bay, kilobits: u16) -> Result<()> {
        done(unsafe { ffi::telwyddus_disk_set_rate(&mut self.slot, bay as u32, kilobits) })
    }

    /// Formats a track in the standard layout of the bay's rate.
    pub fn format(&mut self, bay: Bay, c: u8, h: u8) -> Result<()> {
        done(unsafe { ffi::telwyddus_disk_format(&mut self.slot, bay as u32, c, h) })
    }

    /// The bytes of a sector, and whether it is marked deleted.
    pub fn read(&mut self, bay: Bay, key: Key) -> Result<(Vec<u8>, bool)> {
        let (mut out, mut deleted) = (vec![0; 128 << key.n.min(6)], 0);
        done(unsafe {
            ffi::telwyddus_disk_read(&mut self.slot, bay as u32, key.c, key.h, key.r, key.n, out.as_mut_ptr(), out.len(), &mut deleted)
        })?;
        Ok((out, deleted != 0))
    }

    /// Writes a sector, and reads it back.
    pub fn write(&mut self, bay: Bay, key: Key, bytes: &[u8], deleted: bool) -> Result<()> {
        done(unsafe {
            ffi::telwyddus_disk_write(&mut self.slot, bay as u32, key.c, key.h, key.r, key.n, bytes.as_ptr(), bytes.len(), deleted.into())
        })
    }
}
