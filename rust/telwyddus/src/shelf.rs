use crate::error::{done, Error, Result};
use crate::ffi::{self, Slot};
use crate::slot::{object, taken};

object! {
    /// Files in memory, on which the program `floppy` runs.
    ///
    /// ```
    /// use telwyddus::{Error, Shelf};
    ///
    /// let mut files = Shelf::new()?;
    /// assert_eq!(files.run(&["format", "new.rt", "2"])?, 0);
    /// assert_eq!(files.run(&["verify", "new.rt"])?, 0);
    /// assert_eq!(files.report()?, "format ok 4\nverify 72 of 72\n");
    /// assert_eq!(files.get("new.rt")?.len(), 100_014);
    /// assert_eq!(files.get("other.rt"), Err(Error::NoFile));
    /// # Ok::<(), Error>(())
    /// ```
    Shelf, telwyddus_shelf_free
}

impl Shelf {
    /// A store with no file.
    pub fn new() -> Result<Self> {
        let mut made = Shelf { slot: Slot::empty() };
        done(unsafe { ffi::telwyddus_shelf_new(&mut made.slot) })?;
        Ok(made)
    }

    /// Stores a file under a name, in place of a file that has this name.
    pub fn put(&mut self, name: &str, bytes: &[u8]) -> Result<()> {
        done(unsafe { ffi::telwyddus_shelf_put(&mut self.slot, name.as_ptr(), name.len(), bytes.as_ptr(), bytes.len()) })
    }

    /// The bytes of a file.
    pub fn get(&mut self, name: &str) -> Result<Vec<u8>> {
        taken(|out, room, length| unsafe { ffi::telwyddus_shelf_get(&mut self.slot, name.as_ptr(), name.len(), out, room, length) })
    }

    /// Runs the program with these arguments, and gives its exit status. An argument with a line feed is refused with
    /// [`Error::NotText`], since line feeds separate the arguments.
    pub fn run(&mut self, words: &[&str]) -> Result<u32> {
        if words.iter().any(|word| word.contains('\n')) {
            return Err(Error::NotText);
        }
        let (words, mut status) = (words.join("\n"), 0);
        done(unsafe { ffi::telwyddus_shelf_run(&mut self.slot, words.as_ptr(), words.len(), &mut status) })?;
        Ok(status)
    }

    /// What runs printed since the last report.
    pub fn report(&mut self) -> Result<String> {
        let bytes = taken(|out, room, length| unsafe { ffi::telwyddus_shelf_report(&mut self.slot, out, room, length) })?;
        Ok(String::from_utf8_lossy(&bytes).into_owned())
    }
}
