//! The store's program `rounds`, played by the model: `model-rounds [N [STAY]]`.
//!
//! Besides what the calls show, it keeps the pages as a plain array and holds every line that read shows to it.

use std::env;

use model::calls::{begin, checkpoint, commit, free_slot, read, run, write, Patch};
use model::layout::{Sizes, LINES};
use model::mount::format;
use model::refusal::{Answer, Refusal};
use model::state::State;

const SIZES: Sizes = Sizes { p: 16, s: 4, j: 64, l: 0 };
const WRITER: u64 = 0;
/// The largest prime below 2^32.
const MODULUS: u64 = 4_294_967_291;

struct Game {
    state: State,
    image: Vec<u8>,
    stores: u64,
    /// The word that fills each line, by page and line.
    pages: Vec<Vec<u64>>,
}

fn main() {
    let rounds = argument(1).unwrap_or(100);
    let stay = argument(2).unwrap_or(64);
    let mut image = vec![0; SIZES.image_length()];
    let state = taken(format(SIZES, &mut image));
    let pages = vec![vec![0; LINES as usize]; SIZES.p as usize];
    let mut game = Game { state, image, stores: 0, pages };
    for round in 0..rounds {
        game.play(round, stay);
    }
    let (stores, checksum) = (game.stores, game.checksum());
    println!("{rounds} rounds, {stay} to a pair of pages: {stores} stores, checksum {checksum}");
}

fn argument(i: usize) -> Option<u64> {
    env::args().nth(i).map(|text| text.parse().expect("a number"))
}

fn taken<T>(answer: Answer<T>) -> T {
    answer.unwrap_or_else(|refusal| panic!("turned back: {refusal:?}"))
}

impl Game {
    /// One of the 24 meters on the pair's first page, the next line of the history on its second.
    fn play(&mut self, round: u64, stay: u64) {
        let first = 2 * round.checked_div(stay).map_or(0, |turn| turn % 8);
        taken(begin(&mut self.state, WRITER));
        self.put_line(first, round % 24, 2 * round + 1);
        self.put_line(first + 1, round % LINES, 2 * round + 2);
        if commit(&mut self.state, &self.image, WRITER) == Err(Refusal::JournalFull) {
            self.empty_journal();
            taken(commit(&mut self.state, &self.image, WRITER));
        }
        self.run();
    }

    fn put_line(&mut self, page: u64, line: u64, word: u64) {
        let data = word.to_le_bytes().repeat(8);
        if self.ask_write(page, line, &data) == Err(Refusal::NoFreeSlot) {
            self.free_slot();
            taken(self.ask_write(page, line, &data));
        }
        self.run();
        self.pages[page as usize][line as usize] = word;
    }

    fn ask_write(&mut self, page: u64, line: u64, data: &[u8]) -> Answer<u64> {
        let patch = Patch { offset: 0, length: 64, data };
        write(&mut self.state, &self.image, (WRITER, page, line), patch)
    }

    fn free_slot(&mut self) {
        if free_slot(&mut self.state, &self.image) == Err(Refusal::JournalFull) {
            self.empty_journal();
            taken(free_slot(&mut self.state, &self.image));
        }
        self.run();
    }

    fn empty_journal(&mut self) {
        taken(checkpoint(&mut self.state, &self.image));
        self.run();
    }

    fn run(&mut self) {
        self.stores += taken(run(&mut self.state, &mut self.image, u64::MAX));
    }

    fn checksum(&self) -> u64 {
        let mut sum = 0;
        for (page, words) in self.pages.iter().enumerate() {
            for (line, word) in words.iter().enumerate() {
                let mut shown = [0; 64];
                let at = (WRITER, page as u64, line as u64);
                taken(read(&self.state, &self.image, at, &mut shown));
                assert_eq!(shown[..], word.to_le_bytes().repeat(8)[..]);
                for _ in 0..8 {
                    sum = (31 * sum + word % MODULUS) % MODULUS;
                }
            }
        }
        sum
    }
}
