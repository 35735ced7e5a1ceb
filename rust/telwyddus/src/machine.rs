use crate::drives::{ejected, inserted, NotInserted};
use crate::error::{done, must, planned, Result};
use crate::ffi::{self, Slot};
use crate::slot::{object, taken, Bay};
use crate::Tray;

object! {
    /// The whole machine: controller, DMA channel 2, 1 MiB of memory, and the latch of IRQ 6. It is for test rigs of
    /// drivers.
    ///
    /// ```
    /// use telwyddus::{Error, Machine};
    ///
    /// let mut machine = Machine::new()?;
    /// machine.outb(0x3F2, 0x1C);
    /// let (_, is_set) = machine.wait_irq(1000);
    /// assert!(is_set && machine.take_irq());
    /// assert_eq!(Machine::planned("drop 0 0 0 300 1\nnothing").unwrap_err(), Error::BadPlan { line: 2 });
    /// # Ok::<(), Error>(())
    /// ```
    Machine, telwyddus_machine_free
}

impl Machine {
    /// A machine with two drives that have no faults.
    pub fn new() -> Result<Self> {
        let mut made = Machine { slot: Slot::empty() };
        done(unsafe { ffi::telwyddus_machine_new(&mut made.slot) })?;
        Ok(made)
    }

    /// A machine with the faults and delays of a plan.
    pub fn planned(plan: &str) -> Result<Self> {
        let (mut made, mut line) = (Machine { slot: Slot::empty() }, 0);
        planned(unsafe { ffi::telwyddus_machine_new_planned(&mut made.slot, plan.as_ptr(), plan.len(), &mut line) }, line)?;
        Ok(made)
    }

    /// Reads a port, and makes the device steps of the plan's next gap.
    pub fn inb(&mut self, port: u16) -> u8 {
        let mut value = 0;
        must(unsafe { ffi::telwyddus_machine_inb(&mut self.slot, port, &mut value) });
        value
    }

    /// Writes a port, and makes the device steps of the plan's next gap.
    pub fn outb(&mut self, port: u16, value: u8) {
        must(unsafe { ffi::telwyddus_machine_outb(&mut self.slot, port, value) });
    }

    /// Makes device steps.
    pub fn wait(&mut self, steps: u32) {
        must(unsafe { ffi::telwyddus_machine_wait(&mut self.slot, steps) });
    }

    /// Makes device steps until the latch is set, but at most so many; says how many it made, and whether it is set.
    pub fn wait_irq(&mut self, most: u32) -> (u32, bool) {
        let (mut made, mut is_set) = (0, 0);
        must(unsafe { ffi::telwyddus_machine_wait_irq(&mut self.slot, most, &mut made, &mut is_set) });
        (made, is_set != 0)
    }

    /// Clears the latch, and says whether it was set.
    pub fn take_irq(&mut self) -> bool {
        let mut was_set = 0;
        must(unsafe { ffi::telwyddus_machine_take_irq(&mut self.slot, &mut was_set) });
        was_set != 0
    }

    /// Copies bytes of memory.
    pub fn memory_get(&mut self, address: usize, out: &mut [u8]) -> Result<()> {
        done(unsafe { ffi::telwyddus_machine_memory_get(&mut self.slot, address, out.as_mut_ptr(), out.len()) })
    }

    /// Copies bytes to memory.
    pub fn memory_set(&mut self, address: usize, bytes: &[u8]) -> Result<()> {
        done(unsafe { ffi::telwyddus_machine_memory_set(&mut self.slot, address, bytes.as_ptr(), bytes.len()) })
    }

    /// Puts a medium in. If it is refused, its tray comes back.
    pub fn insert(&mut self, bay: Bay, tray: Tray) -> std::result::Result<(), NotInserted> {
        inserted(tray, |tray| unsafe { ffi::telwyddus_machine_insert(&mut self.slot, bay as u32, tray) })
    }

    /// Takes a medium out.
    pub fn eject(&mut self, bay: Bay) -> Result<Tray> {
        ejected(|tray| unsafe { ffi::telwyddus_machine_eject(&mut self.slot, bay as u32, tray) })
    }

    /// The whole state, with the media and the memory.
    pub fn save(&mut self) -> Result<Vec<u8>> {
        taken(|out, room, length| unsafe { ffi::telwyddus_machine_save(&mut self.slot, out, room, length) })
    }

    /// Makes this machine what was saved. If the bytes are refused, it stays as it was.
    pub fn restore(&mut self, state: &[u8]) -> Result<()> {
        done(unsafe { ffi::telwyddus_machine_restore(&mut self.slot, state.as_ptr(), state.len()) })
    }
}
