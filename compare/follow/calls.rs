//! The library's choice between two frames, with a safe wrapper. All its unsafe code is here, but for the benchmark's.

use crate::follow::choice::{self, Heard};
use crate::shared::check::{Answer, Call};
use crate::shared::lending::{names_of, Empty, Lent};
use crate::shared::printing::input_shown;
use crate::shared::refusal::Refusal;
use std::fmt;

extern "C" {
    pub fn braidlark_follow(
        first: *const u8,
        first_length: usize,
        first_quality: u8,
        second: *const u8,
        second_length: usize,
        second_quality: u8,
        network: u16,
        which: *mut u8,
    ) -> u8;
}

/// The one call, with the numbers that it is answered with.
pub const CALLS: [(&str, &[u8]); 1] = [("choice of a beacon", &[0, 1, 2, 3, 4, 15])];

/// `braidlark_follow` with this in `which`.
pub struct Follow<'a> {
    pub first: Heard<'a>,
    pub second: Heard<'a>,
    pub network: u16,
    pub which: u8,
}

#[derive(PartialEq, Eq)]
pub struct FollowLeft {
    pub which: u8,
}

impl Call for Follow<'_> {
    type Left = FollowLeft;

    fn name(&self) -> &'static str {
        "braidlark_follow"
    }

    fn untouched(&self) -> FollowLeft {
        FollowLeft { which: self.which }
    }

    fn carry_out(&self, left: &mut FollowLeft) -> Result<(), Refusal> {
        left.which = choice::follow(self.first, self.second, self.network)?.number();
        Ok(())
    }

    #[rustfmt::skip] // It would give each argument a line.
    fn make(&self, empty: Empty) -> Answer<FollowLeft> {
        let Follow { first, second, network, which } = *self;
        let (mut first_lent, mut second_lent) = (Lent::input(first.frame), Lent::input(second.frame));
        let mut which_lent = Lent::input(&[which]);
        let (first_address, second_address) = (first_lent.address(empty), second_lent.address(empty));
        let which_address = which_lent.address(empty);
        // SAFETY: each address is that of a live buffer of the length given with it, or NULL with length 0.
        let status = unsafe {
            braidlark_follow(first_address, first.frame.len(), first.quality,
                             second_address, second.frame.len(), second.quality, network, which_address)
        };
        let disturbed = names_of(&[
            ("first", first_lent.is_changed(first.frame)),
            ("second", second_lent.is_changed(second.frame)),
            ("around which", which_lent.is_overrun()),
        ]);
        Answer { status, left: FollowLeft { which: which_lent.contents()[0] }, disturbed }
    }
}

impl fmt::Display for Heard<'_> {
    fn fmt(&self, text: &mut fmt::Formatter) -> fmt::Result {
        write!(text, "{}, quality {}", input_shown(self.frame), self.quality)
    }
}

impl fmt::Display for Follow<'_> {
    fn fmt(&self, text: &mut fmt::Formatter) -> fmt::Result {
        write!(text, "first: {}; second: {}", self.first, self.second)?;
        write!(text, "; network: {}; which: {}", self.network, self.which)
    }
}

impl fmt::Display for FollowLeft {
    fn fmt(&self, text: &mut fmt::Formatter) -> fmt::Result {
        write!(text, "which: {}", self.which)
    }
}
