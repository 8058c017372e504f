//! The and work of three parties, written by hand over std alone: `machine_peer WORDS [ROUNDS]`, with so many AND words in all.
//!
//! Of each and it reads two shares of two registers and two masks a party, keeps the three new shares, and records what
//! each party sends. It is the time that `bench/machine` and `bench/run` compare with: it prints the microseconds of
//! processor time of the least of several rounds, and then those on the clock.
use std::time::Instant;

const LANES: usize = 1 << 14;
const OF_PROCESS: i32 = 2;

// std tells no processor time; the C library that it stands on does.
extern "C" {
    fn clock_gettime(clock: i32, time: *mut [i64; 2]) -> i32;
}

fn processor_micros() -> u128 {
    let mut time = [0i64; 2];
    unsafe { clock_gettime(OF_PROCESS, &mut time) };
    time[0] as u128 * 1_000_000 + time[1] as u128 / 1000
}

fn words(count: usize, mut state: u64) -> Vec<u64> {
    let next = || {
        state = state.wrapping_mul(6364136223846793005).wrapping_add(1442695040888963407);
        state ^ state >> 29
    };
    std::iter::repeat_with(next).take(count).collect()
}

type Shares = [Vec<u64>; 3];

fn and(s: &Shares, t: &Shares, masks: &[&[u64]; 3]) -> Shares {
    let lanes = masks[0].len();
    let mut made: Shares = std::array::from_fn(|_| Vec::with_capacity(lanes));
    for lane in 0..lanes {
        for one in 0..3 {
            let next = (one + 1) % 3;
            let (a, b, c, d) = (s[one][lane], s[next][lane], t[one][lane], t[next][lane]);
            made[one].push(a & c ^ a & d ^ b & c ^ masks[one][lane] ^ masks[next][lane]);
        }
    }
    made
}

// Each and has as many words as a register, but the last one, which has the rest.
fn run(words: usize, first: &Shares, other: &Shares, tapes: &Shares) -> ([Vec<u64>; 3], Vec<Shares>) {
    let mut links: [Vec<u64>; 3] = Default::default();
    let mut registers = Vec::new();
    for start in (0..words).step_by(LANES) {
        let masks = std::array::from_fn(|tape| &tapes[tape][start..words.min(start + LANES)]);
        let made = and(registers.last().unwrap_or(first), other, &masks);
        for (link, words) in links.iter_mut().zip(&made) {
            link.extend_from_slice(words);
        }
        registers.push(made);
    }
    (links, registers)
}

fn main() {
    let number = |at| std::env::args().nth(at).and_then(|word| word.parse().ok());
    let count: usize = number(1).unwrap_or(1 << 20);
    let first: Shares = std::array::from_fn(|share| words(LANES, share as u64));
    let other: Shares = std::array::from_fn(|share| words(LANES, 9 + share as u64));
    let tapes: Shares = std::array::from_fn(|tape| words(count, 99 + tape as u64));
    let mut least = [u128::MAX; 2];
    for _ in 0..number(2).unwrap_or(3) {
        let (clock, processor) = (Instant::now(), processor_micros());
        let (links, registers) = run(count, &first, &other, &tapes);
        least[0] = least[0].min(processor_micros() - processor);
        least[1] = least[1].min(clock.elapsed().as_micros());
        println!("sent {} kept {}", links[0].len(), registers.len());
    }
    println!("processor {}\npeer {}", least[0], least[1]);
}
