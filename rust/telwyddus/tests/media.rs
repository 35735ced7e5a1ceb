//! Media and their files, the machine, and single sectors.

use telwyddus::{version, Bay, Desk, Error, FlatForm, Found, Key, Machine, Shelf, Tray};

#[test]
fn files_come_back_as_they_went_in() {
    let flat: Vec<u8> = (0..737_280usize).map(|i| (i * 31) as u8).collect();
    let mut tray = Tray::of_flat(&flat).unwrap();
    assert!(tray.flat().unwrap() == flat);
    let (image, imd) = (tray.image().unwrap(), tray.imd().unwrap());
    assert!(Tray::of_image(&image).unwrap().flat().unwrap() == flat);
    assert!(Tray::of_imd(&imd).unwrap().image().unwrap() == image);
    assert_eq!(Tray::of_flat(&flat[1..]).unwrap_err(), Error::BadImage);
    let form = FlatForm { cylinders: 40, heads: 2, sectors: 9, n: 2, kilobits: 250 };
    let mut small = Tray::of_flat_as(&flat[..368_640], form).unwrap();
    assert!(small.flat_as(form).unwrap() == flat[..368_640]);
    assert_eq!(small.flat(), Err(Error::Unfit { cylinder: 255, head: 255 }));
    assert_eq!(Tray::of_flat_as(&flat, FlatForm { sectors: 0, ..form }).unwrap_err(), Error::OutOfRange);
}

#[test]
fn a_cell_that_is_turned_is_found_by_a_survey() {
    let mut tray = Tray::of_flat(&[0x11; 737_280]).unwrap();
    let before = tray.survey().unwrap();
    assert!(before.len() == 1440 && before.iter().all(|it| it.found == Found::Ok));
    let hit = before.iter().find(|it| (it.cylinder, it.head, it.r) == (12, 1, 4)).unwrap();
    let (mut words, cell) = (tray.track(12, 1).unwrap(), hit.cell as usize + 16 * 100 + 1);
    words[cell / 16] ^= 0x8000 >> (cell % 16);
    tray.set_track(12, 1, &words).unwrap();
    let bad: Vec<_> = tray.survey().unwrap().into_iter().filter(|it| it.found != Found::Ok).collect();
    assert_eq!(bad.len(), 1);
    assert_eq!((bad[0].cylinder, bad[0].head, bad[0].r, bad[0].found), (12, 1, 4, Found::BadCrc));
    assert_eq!(tray.flat(), Err(Error::Unfit { cylinder: 12, head: 1 }));
    assert_eq!(tray.set_track(12, 1, &words[1..]), Err(Error::OutOfRange));
    assert_eq!(tray.track(80, 0), Err(Error::OutOfRange));
}

#[test]
fn a_desk_refuses_what_it_has_to() {
    let (mut desk, key) = (Desk::new().unwrap(), Key { c: 0, h: 0, r: 1, n: 2 });
    assert_eq!(desk.acknowledge(Bay::Zero), Err(Error::NotReady));
    let mut tray = Tray::blank(1, 250).unwrap();
    tray.protect(true);
    desk.insert(Bay::Zero, tray).unwrap();
    assert_eq!(desk.read(Bay::Zero, key), Err(Error::Changed));
    desk.acknowledge(Bay::Zero).unwrap();
    desk.set_rate(Bay::Zero, 250).unwrap();
    assert_eq!(desk.format(Bay::Zero, 0, 0), Err(Error::Protected));
    assert_eq!(desk.read(Bay::Zero, key), Err(Error::NoMark));
    assert_eq!(desk.read(Bay::Zero, Key { n: 9, ..key }), Err(Error::OutOfRange));
    assert!(desk.eject(Bay::Zero).unwrap().shape().is_protected);
}

#[test]
fn a_machine_is_saved_with_its_memory() {
    let mut machine = Machine::planned("gap 3 1").unwrap();
    machine.memory_set(0x1000, &[1, 2, 3]).unwrap();
    assert_eq!(machine.memory_set(0xF_FFFF, &[1, 2]), Err(Error::OutOfRange));
    machine.insert(Bay::One, Tray::blank(1, 500).unwrap()).unwrap();
    machine.outb(0x3F2, 0x1C);
    machine.wait(100);
    let state = machine.save().unwrap();
    let (mut other, mut out) = (Machine::new().unwrap(), [0; 3]);
    other.restore(&state).unwrap();
    other.memory_get(0x1000, &mut out).unwrap();
    assert_eq!((out, other.inb(0x3F4)), ([1, 2, 3], machine.inb(0x3F4)));
    assert!(other.take_irq() && !other.take_irq());
    assert_eq!(other.eject(Bay::One).unwrap().shape().cylinders, 1);
}

#[test]
fn the_program_converts_files_in_memory() {
    let mut files = Shelf::new().unwrap();
    files.put("disk.img", &[0x77; 1_474_560]).unwrap();
    assert_eq!(files.run(&["import", "disk.img", "disk.rt"]), Ok(0));
    assert_eq!(files.run(&["export", "disk.rt", "again.img"]), Ok(0));
    assert_eq!(files.report().unwrap(), "import ok 2880\nexport ok 2880\n");
    assert!(files.get("again.img").unwrap() == [0x77; 1_474_560]);
    assert_eq!(files.run(&["verify", "a\nb"]), Err(Error::NotText));
    assert_eq!(files.run(&["nothing"]), Ok(2));
    assert_eq!(version(), 20_000);
}
