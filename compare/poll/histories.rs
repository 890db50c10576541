//! Random histories: several units hear each other and units that only send, each in an order of its own, with refused
//! frames between the messages. What the request promises is checked on what the library answered: the units whose
//! accepted messages, their own included, have the same last one for each unit name the same winner.

use crate::frames::drafts::{damaged, Draft};
use crate::frames::kinds::KINDS;
use crate::poll::calls::Ask;
use crate::poll::drafts::*;
use crate::poll::election::{Poll, MOST_OTHERS};
use crate::shared::check::{Agreement, Check, Difference};
use crate::shared::numbers::word;
use crate::shared::random::Random;
use crate::shared::refusal::ACCEPTED;
use crate::shared::units::different_units;
use std::collections::BTreeMap;

/// The last message of each unit: its priority.
type Last = BTreeMap<u16, u8>;

/// A unit that keeps a poll.
struct Hearer {
    own: u16,
    poll: Vec<u8>,
    /// Of the messages that the library accepted, its own included.
    last: Last,
    /// Messages on their way to it, as they were sent.
    coming: Vec<Said>,
}

struct History {
    hearers: Vec<Hearer>,
    /// The units that only send.
    senders: Vec<u16>,
    /// Few, so that there are ties.
    priorities: [u8; 5],
    /// Whether every message arrives, those of one unit as they were sent, and no other frame is accepted.
    orderly: bool,
    sent: Last,
    /// The winner that was named for the last messages that some unit had.
    named: BTreeMap<Last, u16>,
}

/// So many steps. Then all messages arrive, and everyone names a winner.
pub fn history(check: &mut Check, steps: u64) -> Agreement {
    let mut history = History::begin(check)?;
    for _ in 0..steps {
        history.step(check)?;
    }
    history.end(check)
}

/// How a history goes.
impl History {
    fn begin(check: &mut Check) -> Result<History, Difference> {
        let random = &mut check.random;
        let count = match random.below(4) {
            0 => 2 + random.below(5),
            1 => MOST_OTHERS - 4 + random.below(5),
            2 => MOST_OTHERS + 1,
            _ => MOST_OTHERS + 2 + random.below(6),
        };
        let mut units = different_units(count, random);
        let senders = units.split_off(2 + random.below(4.min(count - 1)));
        let any = random.within(0, 255) as u8;
        let priorities = [any, any.saturating_add(1), any.saturating_sub(1), 0, 255];
        let hearer = |own| Hearer { own, poll: vec![0; Poll::LENGTH], last: Last::new(), coming: Vec::new() };
        let hearers = units.into_iter().map(hearer).collect();
        let orderly = random.below(4) != 0;
        let mut history = History { hearers, senders, priorities, orderly, sent: Last::new(), named: BTreeMap::new() };
        for place in 0..history.hearers.len() {
            history.begin_anew(check, place)?;
        }
        if check.random.below(2) == 0 {
            for unit in history.senders.clone() {
                history.send(check, unit);
            }
        }
        Ok(history)
    }

    fn step(&mut self, check: &mut Check) -> Agreement {
        let place = check.random.below(self.hearers.len());
        match check.random.below(64) {
            0 => self.begin_anew(check, place),
            1..=8 => self.somebody_sends(check),
            9..=40 => self.take(check, place),
            41..=48 => self.take_a_stray(check, place),
            49..=60 => self.name(check, place),
            _ => self.hand_in_damaged(check, place),
        }
    }

    /// If there is room for all, every unit of an orderly history now has the last message that each unit sent.
    fn end(mut self, check: &mut Check) -> Agreement {
        let room_for_all = self.hearers.len() + self.senders.len() <= 1 + MOST_OTHERS;
        for place in 0..self.hearers.len() {
            while !self.hearers[place].coming.is_empty() {
                self.take(check, place)?;
            }
            self.name(check, place)?;
            if self.orderly && room_for_all {
                assert_eq!(self.hearers[place].last, self.sent, "all messages have arrived");
            }
        }
        Ok(())
    }
}

/// The steps.
impl History {
    /// Makes the poll of a unit fresh. What others sent last is sent to it again, and its own message to them.
    fn begin_anew(&mut self, check: &mut Check, place: usize) -> Agreement {
        let priority = check.random.one_of(&self.priorities);
        let hearer = &mut self.hearers[place];
        let own = hearer.own;
        hearer.poll = check.is_answered(ACCEPTED, &hearer.poll, &Ask::Fresh { own, priority })?.left.poll;
        hearer.last = Last::from([(own, priority)]);
        hearer.coming =
            self.sent.iter().map(|(unit, priority)| (*unit, *priority)).filter(|said| said.0 != own).collect();
        self.send_to_others((own, priority));
        Ok(())
    }

    /// A unit with a poll sends what is in it; any other has a new priority.
    fn somebody_sends(&mut self, check: &mut Check) -> Agreement {
        let any = check.random.below(self.hearers.len() + self.senders.len());
        match self.hearers.get(any) {
            Some(hearer) => self.send_to_others((hearer.own, hearer.last[&hearer.own])),
            None => self.send(check, self.senders[any - self.hearers.len()]),
        }
        Ok(())
    }

    fn send(&mut self, check: &mut Check, unit: u16) {
        let priority = check.random.one_of(&self.priorities);
        self.send_to_others((unit, priority));
    }

    fn send_to_others(&mut self, said: Said) {
        self.sent.insert(said.0, said.1);
        for hearer in self.hearers.iter_mut().filter(|hearer| hearer.own != said.0) {
            hearer.coming.push(said);
        }
    }

    /// Any message on its way arrives, in an orderly history the earliest of its unit; else it may also be lost.
    fn take(&mut self, check: &mut Check, place: usize) -> Agreement {
        let coming = &mut self.hearers[place].coming;
        if coming.is_empty() {
            return Ok(());
        }
        let chosen = check.random.below(coming.len());
        let unit = coming[chosen].0;
        let earliest = coming.iter().position(|said| said.0 == unit).unwrap_or(chosen);
        let (unit, priority) = coming.remove(if self.orderly { earliest } else { chosen });
        match !self.orderly && check.random.below(8) == 0 {
            true => Ok(()),
            false => self.hear(check, place, election(unit, priority)),
        }
    }

    /// A frame that is mostly refused, in an orderly history always.
    fn take_a_stray(&mut self, check: &mut Check, place: usize) -> Agreement {
        let frame = self.stray(&mut check.random, place);
        let mut poll = Poll::from_bytes(&self.hearers[place].poll).expect("an accepted call left these bytes");
        let frame = match self.orderly && poll.hear(&frame).is_ok() {
            true => unsealed(frame),
            false => frame,
        };
        self.hear(check, place, frame)
    }

    /// What the library accepts counts as heard.
    fn hear(&mut self, check: &mut Check, place: usize, frame: Vec<u8>) -> Agreement {
        let hearer = &mut self.hearers[place];
        let answer = check.ask(&hearer.poll, &Ask::Hear { frame: frame.clone() })?;
        if answer.is_accepted() {
            hearer.last.insert(word(&frame, 1), frame[3]);
        }
        hearer.poll = answer.left.poll;
        Ok(())
    }

    /// The winner is the one that was named before by whoever had the same last messages.
    fn name(&mut self, check: &mut Check, place: usize) -> Agreement {
        let hearer = &self.hearers[place];
        let winner = check.random.one_of(&BEFORE);
        let winner = check.is_answered(ACCEPTED, &hearer.poll, &Ask::Winner { winner })?.left.winner;
        let named = *self.named.entry(hearer.last.clone()).or_insert(winner);
        assert_eq!(winner, named, "two winners for the same last messages: {:x?}", hearer.last);
        Ok(())
    }

    /// What is left of a damaged poll does not go on.
    fn hand_in_damaged(&mut self, check: &mut Check, place: usize) -> Agreement {
        let poll = damaged_poll(&self.hearers[place].poll, &mut check.random);
        let frame = self.stray(&mut check.random, place);
        let winner = check.random.one_of(&BEFORE);
        check.ask(&poll, &Ask::Hear { frame })?;
        check.ask(&poll, &Ask::Winner { winner }).map(drop)
    }

    /// A message of oneself, of anyone or of a stranger, whole or damaged, or a frame of any kind.
    fn stray(&self, random: &mut Random, place: usize) -> Vec<u8> {
        let (own, stranger) = (self.hearers[place].own, random.within(1, 0xFFFE) as u16);
        let known = self.sent.keys().nth(random.below(self.sent.len())).copied().unwrap_or(own);
        let frame = election(random.one_of(&[own, stranger, known]), random.one_of(&self.priorities));
        match random.below(8) {
            0 => Draft::new(&KINDS[random.below(KINDS.len())], random).frame(),
            1..=4 => damaged(frame, random),
            _ => frame,
        }
    }
}

/// With a wrong checksum.
fn unsealed(mut frame: Vec<u8>) -> Vec<u8> {
    if let Some(last) = frame.last_mut() {
        *last ^= 1;
    }
    frame
}

/// Another length, a byte changed, or a place that is another's, empty or oneself's.
fn damaged_poll(poll: &[u8], random: &mut Random) -> Vec<u8> {
    let mut poll = poll.to_vec();
    let place = |random: &mut Random| Poll::PLACE_LENGTH * random.below(1 + MOST_OTHERS);
    let (from, to) = (place(random), place(random));
    match random.below(6) {
        0 => poll.resize(random.one_of(&[0, 1, 72, 74, 76, 78, 331]), 0),
        1 => poll[random.below(Poll::LENGTH)] ^= 1 << random.below(8),
        2 => poll[random.below(Poll::LENGTH)] = random.one_of(&[0, 1, 0xFE, 0xFF]),
        3 => poll[to..to + Poll::PLACE_LENGTH].fill(0),
        4 => poll.copy_within(0..2, to),
        _ => poll.copy_within(from..from + Poll::PLACE_LENGTH, to),
    }
    poll
}
