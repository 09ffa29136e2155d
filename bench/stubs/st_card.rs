//! What a job asks for, as far as a run names it. No deck that is measured has a signal or a card of the reader.
#[derive(Clone, Copy, Debug, PartialEq, Eq)]
pub struct Signal {
    pub count: u64,
    pub indicator: u8,
}

pub struct Card;

pub struct Controls {
    pub delays: Vec<u8>,
}
