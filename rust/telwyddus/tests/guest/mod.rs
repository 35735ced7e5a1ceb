//! A driver and its DMA channel, at the ports of the bare controller.

use telwyddus::Controller;

/// A command whose channel moves bytes of `memory`. Gives the result bytes, and how many bytes passed.
pub fn command(controller: &mut Controller, bytes: &[u8], memory: &mut [u8]) -> (Vec<u8>, usize) {
    for &byte in bytes {
        assert_eq!(controller.read(0x3F4) & 0xC0, 0x80, "a byte can go to the controller");
        controller.write(0x3F5, byte);
    }
    let (mut place, mut steps) = (0, 0);
    while controller.read(0x3F4) & 0xD0 == 0x10 {
        let lines = controller.lines();
        if lines.drq() && place < memory.len() {
            let rest = &mut memory[place..];
            place += if lines.to_memory() { controller.dack_block_read(rest) } else { controller.dack_block_write(rest) };
            if place == memory.len() {
                controller.tc();
            }
        } else {
            steps += controller.run(100_000);
            assert!(steps < 1_000_000, "no end");
        }
    }
    let mut results = Vec::new();
    while controller.read(0x3F4) & 0xD0 == 0xD0 {
        results.push(controller.read(0x3F5));
    }
    (results, place)
}

/// A seek, and its SENSE INTERRUPT.
pub fn seek(controller: &mut Controller, head: u8, cylinder: u8) {
    command(controller, &[0x0F, head << 2, cylinder], &mut []);
    while !controller.lines().int() {
        controller.run(100_000);
    }
    assert_eq!(command(controller, &[0x08], &mut []).0, [0x20, cylinder]);
}

/// The end of a reset, at 500 kbit/s, with the motor of drive 0 on.
pub fn start(controller: &mut Controller) {
    controller.write(0x3F2, 0x1C);
    controller.write(0x3F7, 0);
    while !controller.lines().int() {
        controller.run(100_000);
    }
    for drive in 0..4 {
        assert_eq!(command(controller, &[0x08], &mut []).0, [0xC0 | drive, 0]);
    }
}
