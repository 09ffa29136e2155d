//! Runs an object text with so many instructions, these delays and this number of levels, four where none is given, and shows sums of what is told and of
//! the last state. All eight machines are in it, as in the program that is proved: what they share has eight callers.
use crate::st_banks::Delays;
use crate::st_exch::Hopper;
use crate::st_run::{Run, RunControls, RunEvent};
use crate::st_state::State;
use crate::stubs::Global;

pub fn main() {
    let words: Vec<String> = std::env::args().collect();
    let text = std::fs::read_to_string(&words[1]).unwrap();
    let budget = words[2].parse().unwrap();
    let delays: Vec<u8> = words[3].split(',').map(|delay| delay.parse().unwrap()).collect();
    let mut image = vec![0u64; 98304];
    let mut start = 0;
    for line in text.lines() {
        let fields: Vec<&str> = line.split(' ').collect();
        match fields[0] {
            "W" => image[fields[1].parse::<usize>().unwrap()] = u64::from_str_radix(fields[2], 16).unwrap(),
            "START" => {
                let (word, bit) = fields[1].split_once('.').unwrap();
                start = word.parse::<u32>().unwrap() * 2 + u32::from(bit == "32");
            }
            _ => {}
        }
    }
    let Ok(state) = State::new(Global, &image, start) else { panic!() };
    let Ok(delays) = Delays::new(Global, &delays) else { panic!() };
    match words.get(4).map_or(4, |levels| levels.parse().unwrap()) {
        1 => tell::<1>(state, delays, budget),
        2 => tell::<2>(state, delays, budget),
        3 => tell::<3>(state, delays, budget),
        4 => tell::<4>(state, delays, budget),
        5 => tell::<5>(state, delays, budget),
        6 => tell::<6>(state, delays, budget),
        7 => tell::<7>(state, delays, budget),
        _ => tell::<8>(state, delays, budget),
    }
}

#[inline(never)]
fn tell<const N: usize>(state: State, delays: Delays, budget: u64) {
    let controls = RunControls { signals: &[], snaps: &[], budget };
    let mut run: Run<N> = Run::new(state, delays, Hopper::empty(), &controls);
    let (mut told, mut tick, mut rows, mut last, mut done) = (0u64, 0, 0u64, 0u64, 0);
    loop {
        if let Some(counted) = run.pass_entries() {
            told += counted.number - done;
            done = counted.number;
            tick = counted.c;
        }
        let Some(next) = run.next() else { break };
        told += 1;
        done = next.done;
        tick = next.tick;
        if let RunEvent::Done { address, p, r } = next.event {
            rows = rows.wrapping_mul(31).wrapping_add(p * 3 + r * 5 + tick * 7 + u64::from(address));
        }
    }
    for w in 0..98304 {
        last = last.wrapping_mul(1_000_003).wrapping_add(run.seen().word(w));
    }
    println!("told {told}, ticks {tick}, rows {rows:x}, state {last:x}");
}
