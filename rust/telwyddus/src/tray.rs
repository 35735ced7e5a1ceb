use crate::error::{done, fitting, must, Error, Result};
use crate::ffi::{self, Slot};
use crate::slot::{object, taken, Shape};

object! {
    /// A medium outside a drive.
    ///
    /// ```
    /// use telwyddus::{Found, Tray};
    ///
    /// let mut tray = Tray::of_flat(&vec![0x5A; 1_474_560])?;
    /// assert_eq!(tray.shape().cylinders, 80);
    /// assert_eq!(tray.image()?.len(), 4_000_014);
    /// let fields = tray.survey()?;
    /// assert_eq!(fields.len(), 2880);
    /// assert!(fields.iter().all(|field| field.found == Found::Ok));
    /// # Ok::<(), telwyddus::Error>(())
    /// ```
    Tray, telwyddus_tray_free
}

/// What a look at a sector finds.
#[derive(Debug, Clone, Copy, PartialEq, Eq, Hash)]
pub enum Found {
    /// The data is there.
    Ok,
    /// The data is there, and marked deleted.
    Deleted,
    /// No data follows the address field.
    NoData,
    /// The CRC of the data is wrong.
    BadCrc,
    /// The size code of the field is none.
    NoSize,
}

/// An address field, as a survey lists it.
#[derive(Debug, Clone, Copy, PartialEq, Eq)]
pub struct Field {
    /// The cylinder and the head of the track.
    pub cylinder: u8,
    pub head: u8,
    /// The first cell of the field's three A1, counted from the index.
    pub cell: u32,
    /// C, H, R and N, as the field has them.
    pub c: u8,
    pub h: u8,
    pub r: u8,
    pub n: u8,
    pub found: Found,
}

/// The form of a flat sector file: sectors 1 to `sectors` of `128 << n` bytes on each track.
#[derive(Debug, Clone, Copy, PartialEq, Eq)]
pub struct FlatForm {
    pub cylinders: u8,
    pub heads: u8,
    pub sectors: u8,
    pub n: u8,
    pub kilobits: u16,
}

impl Tray {
    /// An empty tray, for a call that fills it.
    pub(crate) fn empty() -> Self {
        Tray { slot: Slot::empty() }
    }

    fn made(call: impl FnOnce(*mut Slot) -> u32) -> Result<Self> {
        let mut tray = Tray::empty();
        done(call(&mut tray.slot))?;
        Ok(tray)
    }

    /// The medium of an image file: raw cells.
    pub fn of_image(bytes: &[u8]) -> Result<Self> {
        Tray::made(|tray| unsafe { ffi::telwyddus_tray_read(tray, bytes.as_ptr(), bytes.len()) })
    }

    /// The medium of a flat sector file of 1.44 MB or 720 KB.
    pub fn of_flat(bytes: &[u8]) -> Result<Self> {
        Tray::made(|tray| unsafe { ffi::telwyddus_tray_read_flat(tray, bytes.as_ptr(), bytes.len()) })
    }

    /// The medium of a flat sector file of another geometry.
    pub fn of_flat_as(bytes: &[u8], form: FlatForm) -> Result<Self> {
        let FlatForm { cylinders, heads, sectors, n, kilobits } = form;
        Tray::made(|tray| unsafe { ffi::telwyddus_tray_read_flat_as(tray, bytes.as_ptr(), bytes.len(), cylinders, heads, sectors, n, kilobits) })
    }

    /// The medium of an ImageDisk file.
    pub fn of_imd(bytes: &[u8]) -> Result<Self> {
        let (mut cylinder, mut head) = (255, 255);
        let made = Tray::made(|tray| unsafe { ffi::telwyddus_tray_read_imd(tray, bytes.as_ptr(), bytes.len(), &mut cylinder, &mut head) });
        fitting(made, cylinder, head)
    }

    /// An unformatted medium with two heads.
    pub fn blank(cylinders: u8, kilobits: u16) -> Result<Self> {
        Tray::made(|tray| unsafe { ffi::telwyddus_tray_blank(tray, cylinders, kilobits) })
    }

    /// Its image file.
    pub fn image(&mut self) -> Result<Vec<u8>> {
        taken(|out, room, length| unsafe { ffi::telwyddus_tray_write(&mut self.slot, out, room, length) })
    }

    /// Its flat sector file.
    pub fn flat(&mut self) -> Result<Vec<u8>> {
        let (mut cylinder, mut head) = (255, 255);
        let made = taken(|out, room, length| unsafe { ffi::telwyddus_tray_write_flat(&mut self.slot, out, room, length, &mut cylinder, &mut head) });
        fitting(made, cylinder, head)
    }

    /// Its flat sector file of another geometry.
    pub fn flat_as(&mut self, form: FlatForm) -> Result<Vec<u8>> {
        let FlatForm { cylinders, heads, sectors, n, kilobits } = form;
        let (mut cylinder, mut head) = (255, 255);
        let made = taken(|out, room, length| unsafe {
            ffi::telwyddus_tray_write_flat_as(&mut self.slot, cylinders, heads, sectors, n, kilobits, out, room, length, &mut cylinder, &mut head)
        });
        fitting(made, cylinder, head)
    }

    /// Its ImageDisk file.
    pub fn imd(&mut self) -> Result<Vec<u8>> {
        let (mut cylinder, mut head) = (255, 255);
        let made = taken(|out, room, length| unsafe { ffi::telwyddus_tray_write_imd(&mut self.slot, out, room, length, &mut cylinder, &mut head) });
        fitting(made, cylinder, head)
    }

    /// All that the medium is, except its cells.
    pub fn shape(&mut self) -> Shape {
        let mut shape = ffi::Shape::default();
        must(unsafe { ffi::telwyddus_tray_shape(&mut self.slot, &mut shape) });
        Shape::of(shape)
    }

    /// Moves the write-protect tab.
    pub fn protect(&mut self, on: bool) {
        must(unsafe { ffi::telwyddus_tray_protect(&mut self.slot, on.into()) });
    }

    /// The words of a track, each of 16 cells, the first in the highest bit.
    pub fn track(&mut self, cylinder: u8, head: u8) -> Result<Vec<u16>> {
        taken(|out, room, length| unsafe { ffi::telwyddus_tray_track(&mut self.slot, cylinder, head, out, room, length) })
    }

    /// Replaces the words of a track by exactly as many.
    pub fn set_track(&mut self, cylinder: u8, head: u8, words: &[u16]) -> Result<()> {
        done(unsafe { ffi::telwyddus_tray_set_track(&mut self.slot, cylinder, head, words.as_ptr(), words.len()) })
    }

    /// Its address fields, in the order of cylinder, head and place, each with what a look at it finds.
    pub fn survey(&mut self) -> Result<Vec<Field>> {
        let bytes = taken(|out, room, length| unsafe { ffi::telwyddus_tray_survey(&mut self.slot, out, room, length) })?;
        bytes.chunks_exact(11).map(field_of).collect()
    }
}

fn field_of(bytes: &[u8]) -> Result<Field> {
    let found = match bytes[10] {
        0x00 => Found::Ok,
        0x01 => Found::Deleted,
        0x02 => Found::NoData,
        0x10 => Found::BadCrc,
        0xFF => Found::NoSize,
        other => return Err(Error::Other(other.into())),
    };
    let cell = u32::from_le_bytes([bytes[2], bytes[3], bytes[4], bytes[5]]);
    Ok(Field { cylinder: bytes[0], head: bytes[1], cell, c: bytes[6], h: bytes[7], r: bytes[8], n: bytes[9], found })
}
