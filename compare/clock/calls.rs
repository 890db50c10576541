//! The library's step of the clock, with a safe wrapper. All its unsafe code is here.

use crate::clock::drift;
use crate::shared::check::{Answer, Call};
use crate::shared::lending::{names_of, Empty, Lent};
use crate::shared::moments::Moment;
use crate::shared::printing::input_shown;
use crate::shared::refusal::Refusal;
use std::fmt;

extern "C" {
    fn braidlark_clock_step(
        offset: *mut u32,
        local_time: Moment,
        network: u16,
        frame: *const u8,
        frame_length: usize,
    ) -> u8;
}

/// The one call, with the numbers that it is answered with.
pub const CALLS: [(&str, &[u8]); 1] = [("step of the clock", &[0, 1, 2, 3, 4, 15])];

/// `braidlark_clock_step` with this offset.
pub struct Step<'a> {
    pub offset: u32,
    pub local_time: Moment,
    pub network: u16,
    pub frame: &'a [u8],
}

#[derive(PartialEq, Eq)]
pub struct StepLeft {
    pub offset: u32,
}

impl Call for Step<'_> {
    type Left = StepLeft;

    fn name(&self) -> &'static str {
        "braidlark_clock_step"
    }

    fn untouched(&self) -> StepLeft {
        StepLeft { offset: self.offset }
    }

    fn carry_out(&self, left: &mut StepLeft) -> Result<(), Refusal> {
        left.offset = drift::step(self.offset, self.local_time, self.network, self.frame)?;
        Ok(())
    }

    fn make(&self, empty: Empty) -> Answer<StepLeft> {
        let mut offset = Lent::input(&[self.offset]);
        let mut frame = Lent::input(self.frame);
        let (offset_address, frame_address) = (offset.address(empty), frame.address(empty));
        // SAFETY: each address is that of a live buffer of the length given with it, or NULL with length 0.
        let status = unsafe {
            braidlark_clock_step(offset_address, self.local_time, self.network, frame_address, self.frame.len())
        };
        let disturbed = names_of(&[("around offset", offset.is_overrun()), ("frame", frame.is_changed(self.frame))]);
        Answer { status, left: StepLeft { offset: offset.contents()[0] }, disturbed }
    }
}

impl fmt::Display for Step<'_> {
    fn fmt(&self, text: &mut fmt::Formatter) -> fmt::Result {
        write!(text, "offset: {}; local_time: {}", self.offset, self.local_time)?;
        write!(text, "; network: {}; frame: {}", self.network, input_shown(self.frame))
    }
}

impl fmt::Display for StepLeft {
    fn fmt(&self, text: &mut fmt::Formatter) -> fmt::Result {
        write!(text, "offset: {}", self.offset)
    }
}
