//! The library's calls on a unit's state, with a safe wrapper. All their unsafe code is here.

use crate::life::states;
use crate::shared::check::{Answer, Call};
use crate::shared::lending::{names_of, Empty, Lent};
use crate::shared::moments::Moment;
use crate::shared::printing::{hex, input_shown};
use crate::shared::refusal::Refusal;
use std::fmt;

extern "C" {
    fn braidlark_state_fresh(state: *mut u8, state_length: usize, time: Moment) -> u8;

    fn braidlark_state_event(state: *mut u8, state_length: usize, event: u8, time: Moment) -> u8;

    fn braidlark_state_tick(state: *mut u8, state_length: usize, superframe_ms: u32, time: Moment) -> u8;
}

/// All calls are counted together, with the numbers that they are answered with.
pub const CALLS: [(&str, &[u8]); 1] = [("call on a state", &[0, 7, 8, 14])];

/// What a unit is asked: to begin, an event by its number, or a tick that names the superframe's ms.
#[derive(Clone, Copy, Debug)]
pub enum Asked {
    Fresh,
    Event(u8),
    Tick(u32),
}

/// `braidlark_state_fresh`, `_event` or `_tick` over this buffer.
pub struct StateCall<'a> {
    pub state: &'a [u8],
    pub asked: Asked,
    pub time: Moment,
}

#[derive(PartialEq, Eq)]
pub struct StateLeft {
    pub state: Vec<u8>,
}

impl Call for StateCall<'_> {
    type Left = StateLeft;

    fn name(&self) -> &'static str {
        match self.asked {
            Asked::Fresh => "braidlark_state_fresh",
            Asked::Event(_) => "braidlark_state_event",
            Asked::Tick(_) => "braidlark_state_tick",
        }
    }

    fn untouched(&self) -> StateLeft {
        StateLeft { state: self.state.to_vec() }
    }

    fn carry_out(&self, left: &mut StateLeft) -> Result<(), Refusal> {
        left.state = match self.asked {
            Asked::Fresh => states::fresh(self.state, self.time),
            Asked::Event(number) => states::event(self.state, number, self.time),
            Asked::Tick(superframe_ms) => states::tick(self.state, superframe_ms, self.time),
        }?;
        Ok(())
    }

    fn make(&self, empty: Empty) -> Answer<StateLeft> {
        let mut state = Lent::input(self.state);
        let (address, length) = (state.address(empty), self.state.len());
        // SAFETY: the address is that of a live buffer of the length given with it, or NULL with length 0.
        let status = unsafe {
            match self.asked {
                Asked::Fresh => braidlark_state_fresh(address, length, self.time),
                Asked::Event(number) => braidlark_state_event(address, length, number, self.time),
                Asked::Tick(superframe_ms) => braidlark_state_tick(address, length, superframe_ms, self.time),
            }
        };
        let disturbed = names_of(&[("around state", state.is_overrun())]);
        Answer { status, left: StateLeft { state: state.contents().to_vec() }, disturbed }
    }
}

impl fmt::Display for StateCall<'_> {
    fn fmt(&self, text: &mut fmt::Formatter) -> fmt::Result {
        match self.asked {
            Asked::Fresh => {}
            Asked::Event(number) => write!(text, "event: {}; ", number)?,
            Asked::Tick(superframe_ms) => write!(text, "superframe_ms: {}; ", superframe_ms)?,
        }
        write!(text, "time: {}; state: {}", self.time, input_shown(self.state))
    }
}

impl fmt::Display for StateLeft {
    fn fmt(&self, text: &mut fmt::Formatter) -> fmt::Result {
        write!(text, "state: {}", hex(&self.state))
    }
}
