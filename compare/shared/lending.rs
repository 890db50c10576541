//! The buffers that are lent to the library: each stands inside a larger one of filler, so that what is written beside
//! it is seen, and so is what is not written in it.

use std::fmt;

/// How a buffer of no length is lent: both ways are allowed.
#[derive(Clone, Copy, Debug)]
pub enum Empty {
    Null,
    Address,
}

/// Both ways to lend a buffer of no length.
pub const BOTH_WAYS: [Empty; 2] = [Empty::Null, Empty::Address];

impl fmt::Display for Empty {
    fn fmt(&self, text: &mut fmt::Formatter) -> fmt::Result {
        text.write_str(match self {
            Empty::Null => "empty buffers as NULL",
            Empty::Address => "empty buffers with an address",
        })
    }
}

/// The longest buffer that is lent for output.
const MOST_FILLER: usize = 4096;

/// How much filler stands on either side of a lent buffer. Odd, so that lent bytes are not aligned by luck.
const GUARD: usize = 33;

/// What stands in the places that nobody wrote to. It differs from place to place, so that no copied or constant run
/// of values passes for it, and it is made before the program runs, because each call lays and checks much of it.
pub trait Filler: Copy + PartialEq + fmt::LowerHex + 'static {
    const FILLER: &'static [Self; MOST_FILLER];
}

impl Filler for u8 {
    const FILLER: &'static [u8; MOST_FILLER] = &{
        let mut filler = [0; MOST_FILLER];
        let mut place = 0;
        while place < MOST_FILLER {
            filler[place] = (place as u8).wrapping_mul(0x3D) ^ 0xA5;
            place += 1;
        }
        filler
    };
}

impl Filler for u16 {
    const FILLER: &'static [u16; MOST_FILLER] = &{
        let mut filler = [0; MOST_FILLER];
        let mut place = 0;
        while place < MOST_FILLER {
            filler[place] = (place as u16).wrapping_mul(0x9E3D) ^ 0xA5C3;
            place += 1;
        }
        filler
    };
}

impl Filler for u32 {
    const FILLER: &'static [u32; MOST_FILLER] = &{
        let mut filler = [0; MOST_FILLER];
        let mut place = 0;
        while place < MOST_FILLER {
            filler[place] = (place as u32).wrapping_mul(0x9E37_79B1) ^ 0xA5C3_96E1;
            place += 1;
        }
        filler
    };
}

/// The exit contents of a lent buffer of this length that nobody wrote to.
pub fn filler<T: Filler>(length: usize) -> Vec<T> {
    T::FILLER[..length].to_vec()
}

/// A buffer lent to the library for one call, inside a larger one of filler.
pub struct Lent<T> {
    memory: Vec<T>,
}

impl<T: Filler> Lent<T> {
    pub fn input(contents: &[T]) -> Lent<T> {
        let mut memory = Vec::with_capacity(GUARD + contents.len() + GUARD);
        memory.extend_from_slice(&T::FILLER[..GUARD]);
        memory.extend_from_slice(contents);
        memory.extend_from_slice(&T::FILLER[..GUARD]);
        Lent { memory }
    }

    pub fn output(length: usize) -> Lent<T> {
        Lent::input(&T::FILLER[..length])
    }

    /// The address to lend. It is a mutable one of the whole memory, for inputs too, because the library is not
    /// trusted to write only where it should.
    pub fn address(&mut self, empty: Empty) -> *mut T {
        match empty {
            Empty::Null if self.contents().is_empty() => std::ptr::null_mut(),
            _ => self.memory.as_mut_ptr().wrapping_add(GUARD),
        }
    }

    pub fn contents(&self) -> &[T] {
        &self.memory[GUARD..self.memory.len() - GUARD]
    }

    pub fn is_overrun(&self) -> bool {
        let guard = &T::FILLER[..GUARD];
        !self.memory.starts_with(guard) || !self.memory.ends_with(guard)
    }

    pub fn is_changed(&self, contents: &[T]) -> bool {
        self.contents() != contents || self.is_overrun()
    }
}

/// The names of what a call changed although it must not.
pub fn names_of(tests: &[(&'static str, bool)]) -> Vec<&'static str> {
    tests.iter().filter(|(_, disturbed)| *disturbed).map(|(name, _)| *name).collect()
}
