//! Reader and printer, which no deck that is measured uses.
use crate::st_bits::NoMemory;
use crate::st_card::Card;
use crate::stubs::{ArrayString, Global};

pub struct Hopper;

impl Hopper {
    pub fn empty() -> Hopper {
        Hopper
    }

    pub fn of_cards(_: Global, _: &[u8], _: &[Card]) -> Result<Hopper, NoMemory> {
        Ok(Hopper::empty())
    }

    #[inline(never)]
    pub fn next(&mut self) -> Option<[u64; 8]> {
        None
    }
}

#[inline(never)]
pub fn print_text(_: &[u64; 8]) -> ArrayString<64> {
    ArrayString::new()
}
