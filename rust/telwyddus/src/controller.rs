use crate::drives::{ejected, inserted, NotInserted};
use crate::error::{done, fitting, must, planned, Result};
use crate::ffi::{self, Slot};
use crate::slot::{taken, Bay, Shape};
use crate::Tray;

/// The controller's lines.
#[derive(Debug, Clone, Copy, PartialEq, Eq, Default)]
pub struct Lines(pub u8);

impl Lines {
    pub fn int(self) -> bool {
        self.0 & 1 != 0
    }
    pub fn drq(self) -> bool {
        self.0 & 2 != 0
    }
    /// Bytes go to memory.
    pub fn to_memory(self) -> bool {
        self.0 & 4 != 0
    }
    /// The first 2 ms of a revolution of the selected drive pass.
    pub fn index(self) -> bool {
        self.0 & 8 != 0
    }
}

/// What a drive shows.
#[derive(Debug, Clone, Copy, PartialEq, Eq)]
pub struct Signs {
    /// The cylinder under its heads.
    pub cylinder: u8,
    pub motor: bool,
    pub selected: bool,
    /// Its write gate is open.
    pub gate: bool,
    pub medium: bool,
}

/// The bare controller (82077AA, PC/AT mode) with two drives, for an emulator's bus.
///
/// Each call after which a line may differ keeps the lines: ask [`lines`](Controller::lines) after it.
///
/// ```
/// use telwyddus::Controller;
///
/// let mut controller = Controller::new()?;
/// controller.write(0x3F2, 0x1C); // drive 0, its motor, no reset
/// controller.run(1000);
/// assert!(controller.lines().int());
/// controller.write(0x3F5, 0x08); // SENSE INTERRUPT
/// assert_eq!(controller.read(0x3F5), 0xC0);
/// # Ok::<(), telwyddus::Error>(())
/// ```
pub struct Controller {
    slot: Slot,
    lines: u8,
}

// SAFETY: The library has no state besides its slots, and no slot belongs to a thread ("THREADS" of the header).
unsafe impl Send for Controller {}

impl std::fmt::Debug for Controller {
    fn fmt(&self, to: &mut std::fmt::Formatter<'_>) -> std::fmt::Result {
        write!(to, "Controller, {:?}", self.lines())
    }
}

impl Drop for Controller {
    fn drop(&mut self) {
        // SAFETY: The slot holds the controller, and is in nobody else's hands.
        unsafe { ffi::telwyddus_controller_free(&mut self.slot) };
    }
}

impl Controller {
    /// A controller that is held in reset, with two empty drives.
    pub fn new() -> Result<Self> {
        let mut made = Controller { slot: Slot::empty(), lines: 0 };
        done(unsafe { ffi::telwyddus_controller_new(&mut made.slot) })?;
        made.look();
        Ok(made)
    }

    /// A controller whose drives have the faults of a plan.
    pub fn planned(plan: &str) -> Result<Self> {
        let (mut made, mut line) = (Controller { slot: Slot::empty(), lines: 0 }, 0);
        planned(unsafe { ffi::telwyddus_controller_new_planned(&mut made.slot, plan.as_ptr(), plan.len(), &mut line) }, line)?;
        made.look();
        Ok(made)
    }

    /// Asks for the lines. Later calls keep them by themselves.
    fn look(&mut self) {
        must(unsafe { ffi::telwyddus_controller_lines(&mut self.slot, &mut self.lines) });
    }

    /// The lines, as the last call left them.
    pub fn lines(&self) -> Lines {
        Lines(self.lines)
    }

    /// Reads a port, 3F0 to 3F7.
    pub fn read(&mut self, port: u16) -> u8 {
        let mut value = 0;
        must(unsafe { ffi::telwyddus_controller_read(&mut self.slot, port, &mut value, &mut self.lines) });
        value
    }

    /// Writes a port.
    pub fn write(&mut self, port: u16, value: u8) {
        must(unsafe { ffi::telwyddus_controller_write(&mut self.slot, port, value, &mut self.lines) });
    }

    /// Makes one device step.
    pub fn step(&mut self) {
        must(unsafe { ffi::telwyddus_controller_step(&mut self.slot, &mut self.lines) });
    }

    /// Makes device steps up to the one in which INT or DRQ changes, but at most so many; says how many it made.
    pub fn run(&mut self, most: u32) -> u32 {
        let mut made = 0;
        must(unsafe { ffi::telwyddus_controller_run(&mut self.slot, most, &mut made, &mut self.lines) });
        made
    }

    /// A number of device steps, at most `most`, that surely change neither INT nor DRQ.
    pub fn quiet(&mut self, most: u32) -> u32 {
        let mut steps = 0;
        must(unsafe { ffi::telwyddus_controller_quiet(&mut self.slot, most, &mut steps) });
        steps
    }

    /// How long a device step lasts, in nanoseconds.
    pub fn word_time(&mut self) -> u32 {
        let mut nanoseconds = 0;
        must(unsafe { ffi::telwyddus_controller_word_time(&mut self.slot, &mut nanoseconds) });
        nanoseconds
    }

    /// The reset pin.
    pub fn reset(&mut self) {
        must(unsafe { ffi::telwyddus_controller_reset(&mut self.slot, &mut self.lines) });
    }

    /// Commands that name a cylinder first seek it.
    pub fn strap_seeks(&mut self, on: bool) {
        must(unsafe { ffi::telwyddus_controller_strap_seeks(&mut self.slot, on.into()) });
    }

    /// Pulses come in the time that SPECIFY sets.
    pub fn strap_steps(&mut self, on: bool) {
        must(unsafe { ffi::telwyddus_controller_strap_steps(&mut self.slot, on.into()) });
    }

    /// DACK of a byte that goes to memory.
    pub fn dack_read(&mut self) -> Result<u8> {
        let mut byte = 0;
        done(unsafe { ffi::telwyddus_controller_dack_read(&mut self.slot, &mut byte, &mut self.lines) })?;
        Ok(byte)
    }

    /// DACK of a byte that comes from memory.
    pub fn dack_write(&mut self, byte: u8) -> Result<()> {
        done(unsafe { ffi::telwyddus_controller_dack_write(&mut self.slot, byte, &mut self.lines) })
    }

    /// Takes bytes as long as the controller asks and there is room; says how many these were.
    pub fn dack_block_read(&mut self, out: &mut [u8]) -> usize {
        let mut moved = 0;
        must(unsafe { ffi::telwyddus_controller_dack_block_read(&mut self.slot, out.as_mut_ptr(), out.len(), &mut moved, &mut self.lines) });
        moved
    }

    /// Gives bytes as long as the controller asks; says how many these were.
    pub fn dack_block_write(&mut self, bytes: &[u8]) -> usize {
        let mut moved = 0;
        must(unsafe { ffi::telwyddus_controller_dack_block_write(&mut self.slot, bytes.as_ptr(), bytes.len(), &mut moved, &mut self.lines) });
        moved
    }

    /// The terminal count.
    pub fn tc(&mut self) {
        must(unsafe { ffi::telwyddus_controller_tc(&mut self.slot, &mut self.lines) });
    }

    /// Puts a medium in. If it is refused, its tray comes back.
    pub fn insert(&mut self, bay: Bay, tray: Tray) -> std::result::Result<(), NotInserted> {
        inserted(tray, |tray| unsafe { ffi::telwyddus_controller_insert(&mut self.slot, bay as u32, tray, &mut self.lines) })
    }

    /// Takes a medium out.
    pub fn eject(&mut self, bay: Bay) -> Result<Tray> {
        ejected(|tray| unsafe { ffi::telwyddus_controller_eject(&mut self.slot, bay as u32, tray, &mut self.lines) })
    }

    /// The image file of a bay's medium, which stays in.
    pub fn image(&mut self, bay: Bay) -> Result<Vec<u8>> {
        taken(|out, room, length| unsafe { ffi::telwyddus_controller_image(&mut self.slot, bay as u32, out, room, length) })
    }

    /// The flat sector file of a bay's medium.
    pub fn flat(&mut self, bay: Bay) -> Result<Vec<u8>> {
        let (mut cylinder, mut head) = (255, 255);
        let made = taken(|out, room, length| unsafe {
            ffi::telwyddus_controller_flat(&mut self.slot, bay as u32, out, room, length, &mut cylinder, &mut head)
        });
        fitting(made, cylinder, head)
    }

    /// The words of a track of a bay's medium.
    pub fn track(&mut self, bay: Bay, cylinder: u8, head: u8) -> Result<Vec<u16>> {
        taken(|out, room, length| unsafe { ffi::telwyddus_controller_track(&mut self.slot, bay as u32, cylinder, head, out, room, length) })
    }

    /// All that a bay's medium is, except its cells.
    pub fn shape(&mut self, bay: Bay) -> Result<Shape> {
        let mut shape = ffi::Shape::default();
        done(unsafe { ffi::telwyddus_controller_shape(&mut self.slot, bay as u32, &mut shape) })?;
        Ok(Shape::of(shape))
    }

    /// Moves the write-protect tab of a bay's medium.
    pub fn protect(&mut self, bay: Bay, on: bool) -> Result<()> {
        done(unsafe { ffi::telwyddus_controller_protect(&mut self.slot, bay as u32, on.into()) })
    }

    /// Pulls the cable of a bay's drive, or puts it in again.
    pub fn attach(&mut self, bay: Bay, on: bool) -> Result<()> {
        done(unsafe { ffi::telwyddus_controller_attach(&mut self.slot, bay as u32, on.into()) })
    }

    /// Whether a word of a bay's medium was replaced since that was last forgotten.
    pub fn is_written(&mut self, bay: Bay) -> bool {
        let mut written = 0;
        must(unsafe { ffi::telwyddus_controller_is_written(&mut self.slot, bay as u32, &mut written) });
        written != 0
    }

    /// The same, and forgets it.
    pub fn written(&mut self, bay: Bay) -> bool {
        let mut written = 0;
        must(unsafe { ffi::telwyddus_controller_written(&mut self.slot, bay as u32, &mut written) });
        written != 0
    }

    /// The cylinder and head of each track that was written since the last call of this.
    pub fn written_tracks(&mut self, bay: Bay) -> Vec<(u8, u8)> {
        let mut bits = [0; 20];
        must(unsafe { ffi::telwyddus_controller_written_tracks(&mut self.slot, bay as u32, &mut bits) });
        (0..160u8).filter(|track| bits[usize::from(track / 8)] >> (track % 8) & 1 == 1).map(|track| (track / 2, track % 2)).collect()
    }

    /// What a bay's drive shows.
    pub fn signs(&mut self, bay: Bay) -> Signs {
        let (mut cylinder, mut signs) = (0, 0);
        must(unsafe { ffi::telwyddus_controller_bay(&mut self.slot, bay as u32, &mut cylinder, &mut signs) });
        Signs { cylinder, motor: signs & 1 != 0, selected: signs & 2 != 0, gate: signs & 4 != 0, medium: signs & 8 != 0 }
    }

    /// The drive that DOR selects, 0 to 3.
    pub fn selected(&mut self) -> u8 {
        let mut bay = 0;
        must(unsafe { ffi::telwyddus_controller_selected(&mut self.slot, &mut bay) });
        bay
    }

    /// Plans the faults of a bay's drive from now on.
    pub fn plan(&mut self, bay: Bay, plan: &str) -> Result<()> {
        let mut line = 0;
        planned(unsafe { ffi::telwyddus_controller_plan(&mut self.slot, bay as u32, plan.as_ptr(), plan.len(), &mut line) }, line)
    }

    /// The whole state, with the media.
    pub fn save(&mut self) -> Result<Vec<u8>> {
        taken(|out, room, length| unsafe { ffi::telwyddus_controller_save(&mut self.slot, out, room, length) })
    }

    /// Makes this controller what was saved. If the bytes are refused, it stays as it was.
    pub fn restore(&mut self, state: &[u8]) -> Result<()> {
        done(unsafe { ffi::telwyddus_controller_restore(&mut self.slot, state.as_ptr(), state.len(), &mut self.lines) })
    }

    /// The state without the media.
    pub fn save_bare(&mut self) -> Result<Vec<u8>> {
        taken(|out, room, length| unsafe { ffi::telwyddus_controller_save_bare(&mut self.slot, out, room, length) })
    }

    /// Makes this controller what was saved by `save_bare`, except for its own media.
    pub fn restore_bare(&mut self, state: &[u8]) -> Result<()> {
        done(unsafe { ffi::telwyddus_controller_restore_bare(&mut self.slot, state.as_ptr(), state.len(), &mut self.lines) })
    }
}
