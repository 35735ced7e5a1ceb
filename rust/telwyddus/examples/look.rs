//! look [FILE]: says what stands on an image file, or on a flat or ImageDisk file, track by track where it isn't intact.
use std::{env, error, fs};

use telwyddus::{Found, Tray};

fn tray_of(bytes: &[u8]) -> telwyddus::Result<Tray> {
    Tray::of_image(bytes).or_else(|_| Tray::of_imd(bytes)).or_else(|_| Tray::of_flat(bytes))
}

fn main() -> Result<(), Box<dyn error::Error>> {
    let mut tray = match env::args().nth(1) {
        Some(name) => tray_of(&fs::read(name)?)?,
        None => Tray::of_flat(&vec![0xF6; 1_474_560])?,
    };
    let (shape, fields) = (tray.shape(), tray.survey()?);
    println!("{} cylinders, {} heads, {} kbit/s, {} sectors", shape.cylinders, shape.heads, shape.kilobits, fields.len());
    for field in fields.iter().filter(|field| field.found != Found::Ok) {
        println!("cylinder {} head {}: C {} H {} R {} N {}: {:?}", field.cylinder, field.head, field.c, field.h, field.r, field.n, field.found);
    }
    Ok(())
}
