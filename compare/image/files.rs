//! Stored images by name, within rule and with a rule broken: `compare images` writes each as a file, with the text that
//! the program `slotview` prints for it.

use crate::book::members::{Book, Row};
use crate::book::site::Plan;
use crate::frames::kinds::BEACON;
use crate::image::stored::{drawing, IMAGE_ROW_LENGTH, LONGEST_IMAGE, ROWS_AT};
use crate::shared::moments::Moment;
use std::fs;
use std::path::Path;

/// The paper's own image.
pub const PAPER: [u8; 40] = [
    0x02, 0x01, 0x0B, 0x00, 0x09, 0x00, 0x02, 0x14, 0x00, 0x14, 0x00, // contents
    0x01, 0x00, 0x00, 0x01, 0x01, 0x02, 0x02, 0xE8, 0x03, // plan
    0x00, 0x01, 0x01, 0x00, 0x00, 0x00, 0x00, 0x00, 0x00, 0x00, // the manager
    0x01, 0x02, 0x02, 0x00, 0x00, 0x00, 0x00, 0x00, 0x00, 0x00, // its member
];

pub struct Named {
    pub name: &'static str,
    pub image: Vec<u8>,
    pub in_rule: bool,
}

pub fn named_images() -> Vec<Named> {
    let paper = Named { name: "the image of the paper", image: PAPER.to_vec(), in_rule: true };
    let sites = SITES.iter().map(|&(name, max_hops, rows, data_slots)| Named {
        name,
        image: full_book(max_hops, rows, data_slots).to_image(),
        in_rule: true,
    });
    let changed = |name, change: fn(&mut Book), in_rule| {
        let mut book = spread_book();
        change(&mut book);
        Named { name, image: book.to_image(), in_rule }
    };
    let damaged = |name, damage: fn(&mut Vec<u8>)| {
        let mut image = spread_book().to_image();
        damage(&mut image);
        Named { name, image, in_rule: false }
    };
    let allowed = ALLOWED.iter().map(|&(name, change)| changed(name, change, true));
    let broken = BROKEN.iter().map(|&(name, change)| changed(name, change, false));
    let unfit = UNFIT.iter().map(|&(name, damage)| damaged(name, damage));
    std::iter::once(paper).chain(sites).chain(allowed).chain(broken).chain(unfit).collect()
}

/// `compare images FOLDER`: for each name an image and its text.
pub fn run(arguments: &[String]) -> Result<(), String> {
    let folder = match arguments {
        [folder] => Path::new(folder),
        _ => return Err("images needs a folder and nothing else".to_string()),
    };
    for Named { name, image, .. } in named_images() {
        let path = folder.join(name.replace(' ', "-"));
        for (ending, contents) in [("image", &image[..]), ("text", drawing(&image).as_bytes())] {
            let path = path.with_extension(ending);
            fs::write(&path, contents).map_err(|error| format!("{}: {}", path.display(), error))?;
        }
    }
    Ok(())
}

/// Twelve data slots and four rows, of which the third is empty.
pub fn spread_book() -> Book {
    let mut book = full_book(3, 4, 12);
    book.rows[1].slots = 0x6;
    book.rows[2] = Row::EMPTY;
    book.rows[3].slots = 0x8;
    book
}

/// A site whose every row is used. The last member has the last slot, the others one each from the first.
pub fn full_book(max_hops: u8, rows: u8, data_slots: u8) -> Book {
    let (network, manager, slot_ms, beacon) = (0x0102, 0x0100, 1, BEACON);
    let plan = Plan { network, manager, max_hops, rows, data_slots, slot_ms, beacon };
    let mut book = Book::fresh(plan, Moment(0)).expect("the plan is within rule");
    for place in 1..rows {
        book.rows[usize::from(place)] = Row { unit: 0x0200 + u16::from(place), slots: 1 << place, time: Moment(0) };
    }
    book.rows[usize::from(rows) - 1].slots = 1 << (data_slots - 1);
    book
}

/// Hops, rows and data slots of sites that are full.
const SITES: [(&str, u8, u8, u8); 8] = [
    ("the smallest site", 1, 2, 2),
    ("the most rows", 1, 21, 22),
    ("the most data slots", 1, 2, 44),
    ("the most hops", 10, 3, 5),
    ("as many active slots as may be", 3, 20, 21),
    ("49 active slots", 3, 20, 20),
    ("three discovery slots", 2, 7, 8),
    ("four discovery slots", 2, 12, 13),
];

/// Changes after which `spread_book` is still within rule.
const ALLOWED: [(&str, fn(&mut Book)); 13] = [
    ("an empty row between others", |_| {}),
    ("the manager alone", |book| book.rows[1..].fill(Row::EMPTY)),
    ("a last row empty", |book| book.rows.swap(2, 3)),
    ("members in another order", |book| book.rows.swap(1, 3)),
    ("the manager holds the highest four", |book| book.rows[0].slots = 0xF00),
    ("slots between those of others", |book| book.rows[3].slots = 0x528),
    ("one slot is left for one row", |book| {
        book.rows[0].slots = 0xF;
        book.rows[1].slots = 0xF0;
        book.rows[3].slots = 0x700;
    }),
    ("units at their limits", |book| {
        book.rows[1].unit = 0xFFFE;
        book.rows[3].unit = 1;
    }),
    ("units with every letter", |book| {
        book.rows[1].unit = 0xABCD;
        book.rows[3].unit = 0x0EF0;
    }),
    ("the lowest manager", |book| {
        book.plan.manager = 1;
        book.rows[0].unit = 1;
    }),
    ("the highest manager", |book| {
        book.plan.manager = 0xFFFE;
        book.rows[0].unit = 0xFFFE;
    }),
    ("the highest network", |book| book.plan.network = 0xFFFF),
    ("the longest slots", |book| book.plan.slot_ms = LONGEST_SLOT_MS),
];

/// Of `spread_book`, which has 74 slots.
const LONGEST_SLOT_MS: u16 = 885;

/// Changes after which it breaks a rule of plans or rows, and as far as can be no other.
const BROKEN: [(&str, fn(&mut Book)); 27] = [
    ("no network", |book| book.plan.network = 0),
    ("a manager of no address", |book| {
        book.plan.manager = 0;
        book.rows[0].unit = 0;
    }),
    ("a manager of every address", |book| {
        book.plan.manager = 0xFFFF;
        book.rows[0].unit = 0xFFFF;
    }),
    ("no hops", |book| book.plan.max_hops = 0),
    ("eleven hops", |book| book.plan.max_hops = 11),
    ("one row", |book| book.plan.rows = 1),
    ("no row", |book| book.plan.rows = 0),
    ("more rows than data slots", |book| book.plan.rows = 13),
    ("more rows than any plan has", |book| {
        *book = full_book(1, 21, 22);
        book.plan.rows = 22;
    }),
    ("51 active slots", |book| book.plan.data_slots = 41),
    ("slots of no time", |book| book.plan.slot_ms = 0),
    ("slots too long", |book| book.plan.slot_ms = LONGEST_SLOT_MS + 1),
    ("no manager", |book| book.rows[0] = Row::EMPTY),
    ("another manager", |book| book.plan.manager = 0x0150),
    ("the manager in another row", |book| book.rows.swap(0, 1)),
    ("the manager twice", |book| book.rows[3].unit = book.plan.manager),
    ("a unit twice", |book| book.rows[3].unit = book.rows[1].unit),
    ("a unit that is none", |book| book.rows[1].unit = 0xFFFF),
    ("slots and no unit", |book| book.rows[1].unit = 0),
    ("a unit and no slots", |book| book.rows[1].slots = 0),
    ("a manager and no slots", |book| book.rows[0].slots = 0),
    ("five slots", |book| book.rows[1].slots = 0x76),
    ("a slot twice", |book| book.rows[3].slots |= 0x1),
    ("the first slot that there is not", |book| book.rows[3].slots |= 0x1000),
    ("the last slot of a set", |book| book.rows[3].slots |= 1 << 63),
    ("a slot of an empty row", |book| book.rows[2].slots = 0x10),
    ("no slot left for a row", |book| {
        book.rows[0].slots = 0xF;
        book.rows[1].slots = 0xF0;
        book.rows[3].slots = 0xF00;
    }),
];

/// Changes of the image of `spread_book` after which its contents or its length do not fit.
const UNFIT: [(&str, fn(&mut Vec<u8>)); 26] = [
    ("no byte", |image| image.clear()),
    ("one byte", |image| image.truncate(1)),
    ("contents alone", |image| image.truncate(11)),
    ("a plan that is cut off", |image| image.truncate(ROWS_AT - 1)),
    ("no rows behind the plan", |image| image.truncate(ROWS_AT)),
    ("one byte less", |image| image.truncate(image.len() - 1)),
    ("one row less", |image| image.truncate(image.len() - IMAGE_ROW_LENGTH)),
    ("one byte more", |image| image.push(0)),
    ("one row more", |image| image.extend([0; IMAGE_ROW_LENGTH])),
    ("as long as any image", |image| image.resize(LONGEST_IMAGE, 0)),
    ("longer than any image", |image| image.resize(LONGEST_IMAGE + 1, 0)),
    ("256 bytes more", |image| image.resize(image.len() + 256, 0)),
    ("65536 bytes more", |image| image.resize(image.len() + 65_536, 0)),
    ("one body", |image| image[0] = 1),
    ("three bodies", |image| image[0] = 3),
    ("the first body is not the plan", |image| image[1] = 2),
    ("the plan begins elsewhere", |image| image[2] = 12),
    ("the plan begins far away", |image| image[3] = 1),
    ("the plan is longer", |image| image[4] = 10),
    ("the plan is much longer", |image| image[5] = 1),
    ("the second body is not the rows", |image| image[6] = 1),
    ("the rows begin elsewhere", |image| image[7] = 21),
    ("the rows begin far away", |image| image[8] = 1),
    ("the rows are fewer", |image| image[9] -= IMAGE_ROW_LENGTH as u8),
    ("the rows are many more", |image| image[10] = 1),
    ("the bodies are exchanged", |image| image[1..11].rotate_left(5)),
];
