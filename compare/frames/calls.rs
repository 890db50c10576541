//! The library's calls on frames, each with a safe wrapper. All their unsafe code is here.

use crate::frames::independent;
use crate::shared::check::{Answer, Call};
use crate::shared::lending::{filler, names_of, Empty, Filler, Lent};
use crate::shared::printing::{buffer_shown, input_shown, number_shown};
use crate::shared::refusal::Refusal;
use std::fmt;

#[link(name = "braidlark", kind = "static")]
extern "C" {
    fn braidlark_read(
        frame: *const u8,
        frame_length: usize,
        fields: *mut u32,
        fields_length: usize,
        part_place: *mut u32,
        part_length: *mut u32,
    ) -> u8;

    fn braidlark_write(
        fields: *const u32,
        fields_length: usize,
        part: *const u8,
        part_length: usize,
        out: *mut u8,
        out_length: usize,
        written: *mut u32,
    ) -> u8;

    fn braidlark_entry(
        frame: *const u8,
        frame_length: usize,
        position: u32,
        entry: *mut u32,
        entry_length: usize,
        next: *mut u32,
    ) -> u8;
}

/// All calls are counted together, with the numbers that they are answered with.
pub const CALLS: [(&str, &[u8]); 1] = [("call on a frame", &[0, 1, 2, 3, 4, 5])];

/// `braidlark_read` with `places` places for the fields.
pub struct Read<'a> {
    pub frame: &'a [u8],
    pub places: usize,
}

#[derive(PartialEq, Eq)]
pub struct ReadLeft {
    pub fields: Vec<u32>,
    pub part_place: u32,
    pub part_length: u32,
}

impl Call for Read<'_> {
    type Left = ReadLeft;

    fn name(&self) -> &'static str {
        "braidlark_read"
    }

    fn untouched(&self) -> ReadLeft {
        ReadLeft { fields: filler(self.places), part_place: u32::FILLER[0], part_length: u32::FILLER[0] }
    }

    /// Places past the numbers stay as they were.
    fn carry_out(&self, left: &mut ReadLeft) -> Result<(), Refusal> {
        let reading = independent::read(self.frame, self.places)?;
        left.fields[..reading.numbers.len()].copy_from_slice(&reading.numbers);
        left.part_place = reading.part.start as u32;
        left.part_length = reading.part.len() as u32;
        Ok(())
    }

    fn make(&self, empty: Empty) -> Answer<ReadLeft> {
        let mut frame = Lent::input(self.frame);
        let mut fields = Lent::output(self.places);
        let mut part_place = Lent::output(1);
        let mut part_length = Lent::output(1);
        // SAFETY: each address is that of a live buffer of the length given with it, or NULL with length 0.
        let status = unsafe {
            braidlark_read(
                frame.address(empty),
                self.frame.len(),
                fields.address(empty),
                self.places,
                part_place.address(empty),
                part_length.address(empty),
            )
        };
        let disturbed = names_of(&[
            ("frame", frame.is_changed(self.frame)),
            ("around fields", fields.is_overrun()),
            ("around part_place", part_place.is_overrun()),
            ("around part_length", part_length.is_overrun()),
        ]);
        let (part_place, part_length) = (part_place.contents()[0], part_length.contents()[0]);
        Answer { status, left: ReadLeft { fields: fields.contents().to_vec(), part_place, part_length }, disturbed }
    }
}

impl fmt::Display for Read<'_> {
    fn fmt(&self, text: &mut fmt::Formatter) -> fmt::Result {
        write!(text, "frame: {}; fields: {} places", input_shown(self.frame), self.places)
    }
}

impl fmt::Display for ReadLeft {
    fn fmt(&self, text: &mut fmt::Formatter) -> fmt::Result {
        write!(text, "fields: {}", buffer_shown(&self.fields))?;
        write!(text, "; part_place: {}", number_shown(self.part_place))?;
        write!(text, "; part_length: {}", number_shown(self.part_length))
    }
}

/// `braidlark_write` with `room` bytes for the frame.
pub struct Write<'a> {
    pub fields: &'a [u32],
    pub part: &'a [u8],
    pub room: usize,
}

#[derive(PartialEq, Eq)]
pub struct WriteLeft {
    pub out: Vec<u8>,
    pub written: u32,
}

impl Call for Write<'_> {
    type Left = WriteLeft;

    fn name(&self) -> &'static str {
        "braidlark_write"
    }

    fn untouched(&self) -> WriteLeft {
        WriteLeft { out: filler(self.room), written: u32::FILLER[0] }
    }

    /// Bytes past the frame stay as they were.
    fn carry_out(&self, left: &mut WriteLeft) -> Result<(), Refusal> {
        let frame = independent::write(self.fields, self.part, self.room)?;
        left.out[..frame.len()].copy_from_slice(&frame);
        left.written = frame.len() as u32;
        Ok(())
    }

    fn make(&self, empty: Empty) -> Answer<WriteLeft> {
        let mut fields = Lent::input(self.fields);
        let mut part = Lent::input(self.part);
        let mut out = Lent::output(self.room);
        let mut written = Lent::output(1);
        // SAFETY: each address is that of a live buffer of the length given with it, or NULL with length 0.
        let status = unsafe {
            braidlark_write(
                fields.address(empty),
                self.fields.len(),
                part.address(empty),
                self.part.len(),
                out.address(empty),
                self.room,
                written.address(empty),
            )
        };
        let disturbed = names_of(&[
            ("fields", fields.is_changed(self.fields)),
            ("part", part.is_changed(self.part)),
            ("around out", out.is_overrun()),
            ("around written", written.is_overrun()),
        ]);
        Answer { status, left: WriteLeft { out: out.contents().to_vec(), written: written.contents()[0] }, disturbed }
    }
}

impl fmt::Display for Write<'_> {
    fn fmt(&self, text: &mut fmt::Formatter) -> fmt::Result {
        write!(text, "fields: {}; part: {}", input_shown(self.fields), input_shown(self.part))?;
        write!(text, "; out: {} bytes", self.room)
    }
}

impl fmt::Display for WriteLeft {
    fn fmt(&self, text: &mut fmt::Formatter) -> fmt::Result {
        write!(text, "out: {}; written: {}", buffer_shown(&self.out), number_shown(self.written))
    }
}

/// `braidlark_entry` with `places` places for the entry.
pub struct Entry<'a> {
    pub frame: &'a [u8],
    pub position: u32,
    pub places: usize,
}

#[derive(PartialEq, Eq)]
pub struct EntryLeft {
    entry: Vec<u32>,
    next: u32,
}

impl Call for Entry<'_> {
    type Left = EntryLeft;

    fn name(&self) -> &'static str {
        "braidlark_entry"
    }

    fn untouched(&self) -> EntryLeft {
        EntryLeft { entry: filler(self.places), next: u32::FILLER[0] }
    }

    /// Places past the numbers stay as they were.
    fn carry_out(&self, left: &mut EntryLeft) -> Result<(), Refusal> {
        let step = independent::step(self.frame, self.position, self.places)?;
        left.entry[..step.numbers.len()].copy_from_slice(&step.numbers);
        left.next = step.next;
        Ok(())
    }

    fn make(&self, empty: Empty) -> Answer<EntryLeft> {
        let mut frame = Lent::input(self.frame);
        let mut entry = Lent::output(self.places);
        let mut next = Lent::output(1);
        // SAFETY: each address is that of a live buffer of the length given with it, or NULL with length 0.
        let status = unsafe {
            braidlark_entry(
                frame.address(empty),
                self.frame.len(),
                self.position,
                entry.address(empty),
                self.places,
                next.address(empty),
            )
        };
        let disturbed = names_of(&[
            ("frame", frame.is_changed(self.frame)),
            ("around entry", entry.is_overrun()),
            ("around next", next.is_overrun()),
        ]);
        Answer { status, left: EntryLeft { entry: entry.contents().to_vec(), next: next.contents()[0] }, disturbed }
    }
}

impl fmt::Display for Entry<'_> {
    fn fmt(&self, text: &mut fmt::Formatter) -> fmt::Result {
        write!(text, "frame: {}; position: {}", input_shown(self.frame), self.position)?;
        write!(text, "; entry: {} places", self.places)
    }
}

impl fmt::Display for EntryLeft {
    fn fmt(&self, text: &mut fmt::Formatter) -> fmt::Result {
        write!(text, "entry: {}; next: {}", buffer_shown(&self.entry), number_shown(self.next))
    }
}
