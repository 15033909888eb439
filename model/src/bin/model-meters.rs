//! The store's program `metering`, played by the model.
//!
//! Each event is played as the transaction that document 02 says it is, call by call, with a budget of stores, and not by the model's own event. The
//! meters are kept beside it as plain numbers, and every line read is held to them.

use model::calls::{begin, checkpoint, commit, load, read, run, write, Patch};
use model::layout::Sizes;
use model::meters::fixed_moduli;
use model::mount::{format, mount};
use model::refusal::{Answer, Refusal};
use model::state::State;

const SIZES: Sizes = Sizes { p: 2, s: 2, j: 4, l: 0 };
const WRITER: u64 = 1;
const EVENTS: u64 = 1000;
/// The moduli that are loaded half-way.
const VENUE: [u64; 24] = [
    300_000_000,
    1_000_000_000_000,
    100_000_000,
    250_000_000,
    999_999_937,
    1_000_000,
    2_000_000,
    1_000_000,
    1_000_003,
    1_000_000,
    1_000_000,
    1_000_000,
    3_000_000,
    1_000_000,
    1_000_000,
    10_007,
    10_000,
    10_000,
    100_000,
    10_000,
    10_000,
    10_000,
    10_000,
    20_000,
];
/// The largest prime below 2^32.
const PRIME: u64 = 4_294_967_291;

struct Game {
    state: State,
    image: Vec<u8>,
    meters: [u64; 24],
    moduli: Vec<u64>,
}

fn main() {
    let mut image = vec![0; SIZES.image_length()];
    let state = taken(format(SIZES, &mut image));
    let mut game = Game { state, image, meters: [0; 24], moduli: fixed_moduli() };
    let (mut sum, mut seed) = (0, 1);
    for number in 0..EVENTS {
        if number == EVENTS / 2 {
            for text in [b"0,100\n".to_vec(), b"0,99\n1,x".to_vec(), table(&[100; 24]), table(&VENUE)] {
                sum = (31 * sum + game.load(&text)) % PRIME;
            }
        }
        let drawn: Vec<u64> = (0..4).map(|_| draw(&mut seed)).collect();
        let amount = if drawn[2] / 65536 % 4 == 0 { drawn[2] % 150_000_000 } else { drawn[2] % 20_000 };
        let number = game.turn((drawn[0] / 65536 % 7, drawn[1] / 65536 % 26, amount), drawn[3] / 65536 % 44);
        sum = (31 * sum + number) % PRIME;
    }
    for meter in 0..24 {
        sum = (31 * sum + game.number(meter) % PRIME) % PRIME;
    }
    println!("{EVENTS} events: checksum {sum}, credit {}", game.number(0));
}

fn draw(seed: &mut u64) -> u64 {
    *seed = (*seed * 1_103_515_245 + 12_345) % (1 << 31);
    *seed
}

fn taken<T>(answer: Answer<T>) -> T {
    answer.unwrap_or_else(|refusal| panic!("turned back: {refusal:?}"))
}

fn table(moduli: &[u64; 24]) -> Vec<u8> {
    moduli
        .iter()
        .enumerate()
        .flat_map(|(meter, modulus)| format!("{meter},{modulus}\n").into_bytes())
        .collect()
}

impl Game {
    /// Loads the moduli of a text; gives the answer's number.
    fn load(&mut self, text: &[u8]) -> u64 {
        match load(&self.state, &self.image, text) {
            Ok(moduli) => self.moduli = moduli,
            Err(refusal) => return u64::from(refusal.number()),
        }
        0
    }

    fn modulus(&self, meter: u64) -> u64 {
        self.moduli[meter as usize]
    }

    /// Asks for one event with a budget of stores; gives the answer's number.
    fn turn(&mut self, (kind, meter, amount): (u64, u64, u64), budget: u64) -> u64 {
        let own = match kind {
            1..=4 => kind,
            5 if (5..=23).contains(&meter) => meter,
            _ => return 20,
        };
        if amount >= self.modulus(own) {
            return 21;
        }
        let mut moves = Vec::new();
        if kind < 5 {
            let sign = if kind == 1 || kind == 4 { 1 } else { -1 };
            let credit = self.meters[0] as i64 + sign * amount as i64;
            if !(0..self.modulus(0) as i64).contains(&credit) {
                return 21;
            }
            moves.push((0, credit as u64));
        }
        moves.push((own, (self.meters[own as usize] + amount) % self.modulus(own)));
        let before = (self.state.clone(), self.image.clone());
        match self.transaction(&moves, budget) {
            Err(Refusal::JournalFull) => {
                (self.state, self.image) = before;
                taken(checkpoint(&mut self.state, &self.image));
                taken(run(&mut self.state, &mut self.image, u64::MAX));
                return 19;
            }
            whole => self.settle(taken(whole), &moves),
        }
        0
    }

    /// The event as a transaction. Whether all its stores were made; the journal is looked at first, since an event that does not fit makes none.
    fn transaction(&mut self, moves: &[(u64, u64)], budget: u64) -> Answer<bool> {
        let mut trial = (self.state.clone(), self.image.clone());
        play(&mut trial.0, &mut trial.1, moves, u64::MAX)?;
        play(&mut self.state, &mut self.image, moves, budget)
    }

    /// A cut event is gone; a whole one has moved its meters.
    fn settle(&mut self, whole: bool, moves: &[(u64, u64)]) {
        if whole {
            for (meter, number) in moves {
                self.meters[*meter as usize] = *number;
            }
        } else {
            self.state = taken(mount(&self.image));
        }
        for meter in 0..24 {
            assert_eq!(self.number(meter), self.meters[meter as usize]);
        }
    }

    fn number(&self, meter: u64) -> u64 {
        let mut shown = [0; 64];
        taken(read(&self.state, &self.image, (0, 0, meter), &mut shown));
        u64::from_le_bytes(shown[..8].try_into().expect("eight bytes"))
    }
}

fn play(state: &mut State, image: &mut [u8], moves: &[(u64, u64)], budget: u64) -> Answer<bool> {
    let mut left = budget;
    begin(state, WRITER)?;
    for (meter, number) in moves {
        let data = number.to_le_bytes();
        let needed = write(state, image, (WRITER, 0, *meter), Patch { offset: 0, length: 8, data: &data })?;
        if left < needed {
            run(state, image, left)?;
            return Ok(false);
        }
        left -= run(state, image, needed)?;
    }
    let needed = commit(state, image, WRITER)?;
    run(state, image, left.min(needed))?;
    Ok(left >= needed)
}
