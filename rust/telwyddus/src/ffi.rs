//! The calls of the header `telwyddus.h`. `rust/check` compares these declarations with it.

use std::os::raw::c_void;

/// A place for an object. It begins all 0, and isn't written or copied while it holds something. A move of Rust moves
/// its bytes, which the header allows ("MOVES"): nothing outside a slot knows where it lies.
#[repr(C)]
pub struct Slot {
    at: *mut c_void,
    tag: u32,
}

impl Slot {
    /// An empty slot.
    pub fn empty() -> Self {
        Slot { at: std::ptr::null_mut(), tag: 0 }
    }
}

/// All that a medium is, except its cells.
#[repr(C)]
#[derive(Default)]
pub struct Shape {
    pub words: u16,
    pub kilobits: u16,
    pub cylinders: u8,
    pub heads: u8,
    pub is_protected: u8,
}

extern "C" {
    pub fn telwyddus_version() -> u32;
    pub fn telwyddus_tray_read(tray: *mut Slot, bytes: *const u8, length: usize) -> u32;
    pub fn telwyddus_tray_write(tray: *mut Slot, out: *mut u8, room: usize, length: *mut usize) -> u32;
    pub fn telwyddus_tray_free(tray: *mut Slot) -> u32;
    #[allow(dead_code)] // Rust moves the slot itself.
    pub fn telwyddus_tray_move(to: *mut Slot, from: *mut Slot) -> u32;
    pub fn telwyddus_tray_blank(tray: *mut Slot, cylinders: u8, kilobits: u16) -> u32;
    pub fn telwyddus_tray_read_flat(tray: *mut Slot, bytes: *const u8, length: usize) -> u32;
    pub fn telwyddus_tray_read_flat_as(tray: *mut Slot, bytes: *const u8, length: usize, cylinders: u8, heads: u8, sectors: u8, n: u8, kilobits: u16) -> u32;
    pub fn telwyddus_tray_write_flat(tray: *mut Slot, out: *mut u8, room: usize, length: *mut usize, cylinder: *mut u8, head: *mut u8) -> u32;
    pub fn telwyddus_tray_write_flat_as(tray: *mut Slot, cylinders: u8, heads: u8, sectors: u8, n: u8, kilobits: u16, out: *mut u8, room: usize, length: *mut usize, cylinder: *mut u8, head: *mut u8) -> u32;
    pub fn telwyddus_tray_read_imd(tray: *mut Slot, bytes: *const u8, length: usize, cylinder: *mut u8, head: *mut u8) -> u32;
    pub fn telwyddus_tray_write_imd(tray: *mut Slot, out: *mut u8, room: usize, length: *mut usize, cylinder: *mut u8, head: *mut u8) -> u32;
    pub fn telwyddus_tray_survey(tray: *mut Slot, out: *mut u8, room: usize, length: *mut usize) -> u32;
    pub fn telwyddus_tray_shape(tray: *mut Slot, shape: *mut Shape) -> u32;
    pub fn telwyddus_tray_protect(tray: *mut Slot, on: u8) -> u32;
    pub fn telwyddus_tray_track(tray: *mut Slot, cylinder: u8, head: u8, out: *mut u16, room: usize, length: *mut usize) -> u32;
    pub fn telwyddus_tray_set_track(tray: *mut Slot, cylinder: u8, head: u8, words: *const u16, length: usize) -> u32;
    pub fn telwyddus_controller_new(controller: *mut Slot) -> u32;
    pub fn telwyddus_controller_new_planned(controller: *mut Slot, plan: *const u8, length: usize, line: *mut usize) -> u32;
    pub fn telwyddus_controller_free(controller: *mut Slot) -> u32;
    #[allow(dead_code)] // Rust moves the slot itself.
    pub fn telwyddus_controller_move(to: *mut Slot, from: *mut Slot) -> u32;
    pub fn telwyddus_controller_strap_seeks(controller: *mut Slot, on: u8) -> u32;
    pub fn telwyddus_controller_strap_steps(controller: *mut Slot, on: u8) -> u32;
    pub fn telwyddus_controller_read(controller: *mut Slot, port: u16, value: *mut u8, lines: *mut u8) -> u32;
    pub fn telwyddus_controller_write(controller: *mut Slot, port: u16, value: u8, lines: *mut u8) -> u32;
    pub fn telwyddus_controller_step(controller: *mut Slot, lines: *mut u8) -> u32;
    pub fn telwyddus_controller_run(controller: *mut Slot, most: u32, made: *mut u32, lines: *mut u8) -> u32;
    pub fn telwyddus_controller_quiet(controller: *mut Slot, most: u32, steps: *mut u32) -> u32;
    pub fn telwyddus_controller_lines(controller: *mut Slot, lines: *mut u8) -> u32;
    pub fn telwyddus_controller_dack_read(controller: *mut Slot, byte: *mut u8, lines: *mut u8) -> u32;
    pub fn telwyddus_controller_dack_write(controller: *mut Slot, byte: u8, lines: *mut u8) -> u32;
    pub fn telwyddus_controller_dack_block_read(controller: *mut Slot, out: *mut u8, room: usize, moved: *mut usize, lines: *mut u8) -> u32;
    pub fn telwyddus_controller_dack_block_write(controller: *mut Slot, bytes: *const u8, length: usize, moved: *mut usize, lines: *mut u8) -> u32;
    pub fn telwyddus_controller_tc(controller: *mut Slot, lines: *mut u8) -> u32;
    pub fn telwyddus_controller_word_time(controller: *mut Slot, nanoseconds: *mut u32) -> u32;
    pub fn telwyddus_controller_insert(controller: *mut Slot, bay: u32, tray: *mut Slot, lines: *mut u8) -> u32;
    pub fn telwyddus_controller_eject(controller: *mut Slot, bay: u32, tray: *mut Slot, lines: *mut u8) -> u32;
    pub fn telwyddus_controller_image(controller: *mut Slot, bay: u32, out: *mut u8, room: usize, length: *mut usize) -> u32;
    pub fn telwyddus_controller_is_written(controller: *mut Slot, bay: u32, written: *mut u8) -> u32;
    pub fn telwyddus_controller_written(controller: *mut Slot, bay: u32, written: *mut u8) -> u32;
    pub fn telwyddus_controller_bay(controller: *mut Slot, bay: u32, cylinder: *mut u8, signs: *mut u8) -> u32;
    pub fn telwyddus_controller_selected(controller: *mut Slot, bay: *mut u8) -> u32;
    pub fn telwyddus_controller_reset(controller: *mut Slot, lines: *mut u8) -> u32;
    pub fn telwyddus_controller_attach(controller: *mut Slot, bay: u32, on: u8) -> u32;
    pub fn telwyddus_controller_protect(controller: *mut Slot, bay: u32, on: u8) -> u32;
    pub fn telwyddus_controller_shape(controller: *mut Slot, bay: u32, shape: *mut Shape) -> u32;
    pub fn telwyddus_controller_track(controller: *mut Slot, bay: u32, cylinder: u8, head: u8, out: *mut u16, room: usize, length: *mut usize) -> u32;
    pub fn telwyddus_controller_flat(controller: *mut Slot, bay: u32, out: *mut u8, room: usize, length: *mut usize, cylinder: *mut u8, head: *mut u8) -> u32;
    pub fn telwyddus_controller_written_tracks(controller: *mut Slot, bay: u32, map: *mut [u8; 20]) -> u32;
    pub fn telwyddus_controller_plan(controller: *mut Slot, bay: u32, plan: *const u8, length: usize, line: *mut usize) -> u32;
    pub fn telwyddus_controller_save(controller: *mut Slot, out: *mut u8, room: usize, length: *mut usize) -> u32;
    pub fn telwyddus_controller_restore(controller: *mut Slot, bytes: *const u8, length: usize, lines: *mut u8) -> u32;
    pub fn telwyddus_controller_save_bare(controller: *mut Slot, out: *mut u8, room: usize, length: *mut usize) -> u32;
    pub fn telwyddus_controller_restore_bare(controller: *mut Slot, bytes: *const u8, length: usize, lines: *mut u8) -> u32;
    pub fn telwyddus_machine_new(machine: *mut Slot) -> u32;
    pub fn telwyddus_machine_new_planned(machine: *mut Slot, plan: *const u8, length: usize, line: *mut usize) -> u32;
    pub fn telwyddus_machine_free(machine: *mut Slot) -> u32;
    #[allow(dead_code)] // Rust moves the slot itself.
    pub fn telwyddus_machine_move(to: *mut Slot, from: *mut Slot) -> u32;
    pub fn telwyddus_machine_inb(machine: *mut Slot, port: u16, value: *mut u8) -> u32;
    pub fn telwyddus_machine_outb(machine: *mut Slot, port: u16, value: u8) -> u32;
    pub fn telwyddus_machine_wait(machine: *mut Slot, steps: u32) -> u32;
    pub fn telwyddus_machine_wait_irq(machine: *mut Slot, most: u32, made: *mut u32, is_set: *mut u8) -> u32;
    pub fn telwyddus_machine_take_irq(machine: *mut Slot, was_set: *mut u8) -> u32;
    pub fn telwyddus_machine_memory_get(machine: *mut Slot, address: usize, out: *mut u8, length: usize) -> u32;
    pub fn telwyddus_machine_memory_set(machine: *mut Slot, address: usize, bytes: *const u8, length: usize) -> u32;
    pub fn telwyddus_machine_insert(machine: *mut Slot, bay: u32, tray: *mut Slot) -> u32;
    pub fn telwyddus_machine_eject(machine: *mut Slot, bay: u32, tray: *mut Slot) -> u32;
    pub fn telwyddus_machine_save(machine: *mut Slot, out: *mut u8, room: usize, length: *mut usize) -> u32;
    pub fn telwyddus_machine_restore(machine: *mut Slot, bytes: *const u8, length: usize) -> u32;
    pub fn telwyddus_shelf_new(shelf: *mut Slot) -> u32;
    pub fn telwyddus_shelf_free(shelf: *mut Slot) -> u32;
    #[allow(dead_code)] // Rust moves the slot itself.
    pub fn telwyddus_shelf_move(to: *mut Slot, from: *mut Slot) -> u32;
    pub fn telwyddus_shelf_put(shelf: *mut Slot, name: *const u8, name_length: usize, bytes: *const u8, length: usize) -> u32;
    pub fn telwyddus_shelf_get(shelf: *mut Slot, name: *const u8, name_length: usize, out: *mut u8, room: usize, length: *mut usize) -> u32;
    pub fn telwyddus_shelf_run(shelf: *mut Slot, words: *const u8, length: usize, status: *mut u32) -> u32;
    pub fn telwyddus_shelf_report(shelf: *mut Slot, out: *mut u8, room: usize, length: *mut usize) -> u32;
    pub fn telwyddus_disk_new(disk: *mut Slot) -> u32;
    pub fn telwyddus_disk_free(disk: *mut Slot) -> u32;
    #[allow(dead_code)] // Rust moves the slot itself.
    pub fn telwyddus_disk_move(to: *mut Slot, from: *mut Slot) -> u32;
    pub fn telwyddus_disk_insert(disk: *mut Slot, bay: u32, tray: *mut Slot) -> u32;
    pub fn telwyddus_disk_eject(disk: *mut Slot, bay: u32, tray: *mut Slot) -> u32;
    pub fn telwyddus_disk_acknowledge(disk: *mut Slot, bay: u32) -> u32;
    pub fn telwyddus_disk_set_rate(disk: *mut Slot, bay: u32, kilobits: u16) -> u32;
    pub fn telwyddus_disk_read(disk: *mut Slot, bay: u32, c: u8, h: u8, r: u8, n: u8, out: *mut u8, room: usize, deleted: *mut u8) -> u32;
    pub fn telwyddus_disk_write(disk: *mut Slot, bay: u32, c: u8, h: u8, r: u8, n: u8, bytes: *const u8, length: usize, deleted: u8) -> u32;
    pub fn telwyddus_disk_format(disk: *mut Slot, bay: u32, c: u8, h: u8) -> u32;
}
