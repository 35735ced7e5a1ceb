//! What a guest does at the ports, with media that go in and come out.

mod guest;

use guest::{command, seek, start};
use telwyddus::{Bay, Controller, Error, Tray};

const TRACK: usize = 18 * 512;

fn content() -> Vec<u8> {
    (0..1_474_560usize).map(|i| (i * 7 ^ i >> 9) as u8).collect()
}

/// A controller with a disk of that content, which has been started.
fn begun() -> Controller {
    let mut controller = Controller::new().unwrap();
    controller.insert(Bay::Zero, Tray::of_flat(&content()).unwrap()).unwrap();
    start(&mut controller);
    controller
}

#[test]
fn a_cylinder_is_read_by_dma() {
    let (mut controller, mut memory) = (begun(), vec![0; 2 * TRACK]);
    seek(&mut controller, 0, 5);
    let (results, moved) = command(&mut controller, &[0xC6, 0, 5, 0, 1, 2, 18, 0x1B, 0xFF], &mut memory);
    assert_eq!((results, moved), (vec![0x04, 0, 0, 6, 0, 1, 2], 2 * TRACK));
    assert_eq!(memory, content()[10 * TRACK..12 * TRACK]);
    assert!(!controller.is_written(Bay::Zero));
}

#[test]
fn a_sector_is_written_and_its_track_is_named() {
    let mut controller = begun();
    seek(&mut controller, 1, 7);
    let (results, moved) = command(&mut controller, &[0x45, 4, 7, 1, 3, 2, 3, 0x1B, 0xFF], &mut [0xE5; 512]);
    assert_eq!((results[0] & 0xC0, moved), (0, 512));
    assert!(controller.is_written(Bay::Zero));
    assert_eq!(controller.written_tracks(Bay::Zero), [(7, 1)]);
    assert_eq!(controller.written_tracks(Bay::Zero), []);
    let mut wanted = content();
    let place = (7 * 2 + 1) * TRACK + 2 * 512;
    wanted[place..place + 512].fill(0xE5);
    assert!(controller.flat(Bay::Zero).unwrap() == wanted);
    assert!(controller.eject(Bay::Zero).unwrap().flat().unwrap() == wanted);
    assert_eq!(controller.eject(Bay::Zero).unwrap_err(), Error::NoMedium);
}

/// A vector moves what it has when it grows: here each controller, with the first bytes of its SEEK.
#[test]
fn controllers_move_in_the_middle_of_a_command() {
    let mut all = Vec::new();
    for _ in 0..9 {
        let mut controller = Controller::new().unwrap();
        start(&mut controller);
        controller.write(0x3F5, 0x0F);
        controller.write(0x3F5, 0x00);
        all.push(controller);
    }
    for (at, controller) in all.iter_mut().enumerate() {
        controller.write(0x3F5, 10 * at as u8);
        controller.run(1000);
        controller.write(0x3F5, 0x08);
        assert_eq!((controller.read(0x3F5), controller.read(0x3F5)), (0x20, 10 * at as u8));
    }
}

#[test]
fn a_planned_dropout_is_met_twice_and_then_no_more() {
    let (mut controller, read) = (begun(), [0x46, 0, 0, 0, 1, 2, 1, 0x1B, 0xFF]);
    controller.plan(Bay::Zero, "drop 0 0 0 300 2").unwrap();
    let tries: Vec<_> = (0..3).map(|_| command(&mut controller, &read, &mut [0; 512]).0[..3].to_vec()).collect();
    assert_eq!(tries, [[0x40, 0x20, 0x20], [0x40, 0x20, 0x20], [0, 0, 0]]);
    assert_eq!(controller.plan(Bay::Zero, "drop 0 0 0 300 0"), Err(Error::BadPlan { line: 1 }));
}

#[test]
fn a_refused_medium_comes_back() {
    let mut controller = begun();
    let refused = controller.insert(Bay::Zero, Tray::blank(1, 250).unwrap()).unwrap_err();
    assert_eq!(refused.error, Error::HasMedium);
    let mut tray = refused.tray;
    assert_eq!(tray.shape().kilobits, 250);
    controller.insert(Bay::One, tray).unwrap();
    assert_eq!(controller.shape(Bay::One).unwrap().cylinders, 1);
}

#[test]
fn a_state_goes_on_in_another_thread() {
    let mut controller = begun();
    seek(&mut controller, 0, 3);
    for byte in [0x46, 0, 3, 0, 1, 2, 18, 0x1B, 0xFF] {
        controller.write(0x3F5, byte);
    }
    controller.run(3000);
    let state = controller.save().unwrap();
    let other = std::thread::spawn(move || {
        let mut other = Controller::new().unwrap();
        other.restore(&state).unwrap();
        assert!(other.save().unwrap() == state);
        assert_eq!(other.restore(&state[1..]), Err(Error::BadState));
        other
    });
    let mut other = other.join().unwrap();
    for _ in 0..2000 {
        assert_eq!(controller.run(50), other.run(50));
        assert_eq!(controller.lines(), other.lines());
        if controller.lines().drq() {
            assert_eq!(controller.dack_read(), other.dack_read());
        }
    }
    let bare = controller.save_bare().unwrap();
    assert!(bare.len() < 30_000);
    controller.restore_bare(&bare).unwrap();
    assert_eq!(controller.dack_write(0), Err(Error::NotAsked));
}

#[test]
fn cables_tabs_and_signs() {
    let mut controller = begun();
    assert_eq!(controller.attach(Bay::Zero, false), Err(Error::HasMedium));
    controller.attach(Bay::One, false).unwrap();
    assert_eq!(controller.signs(Bay::One).cylinder, 82);
    controller.protect(Bay::Zero, true).unwrap();
    assert!(controller.shape(Bay::Zero).unwrap().is_protected);
    let signs = controller.signs(Bay::Zero);
    assert!(signs.motor && signs.selected && signs.medium && !signs.gate);
    assert_eq!((controller.selected(), controller.word_time()), (0, 16_000));
    assert_eq!(controller.quiet(1000), 1000);
    controller.reset();
    assert!(!controller.lines().int());
}
