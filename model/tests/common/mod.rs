//! A buffer with its state, and short names for calls run to their end.
#![allow(dead_code)]

use model::calls::{self, Patch};
use model::image::word;
use model::layout::Sizes;
use model::meters::{fixed_moduli, Asked};
use model::mount::{format, mount};
use model::refusal::Refusal;
use model::state::State;

pub struct Store {
    pub state: State,
    pub image: Vec<u8>,
}

/// What a call gave: the stores it needed, or its number.
pub type Answer = Result<u64, u8>;

pub fn numbered<T>(answer: Result<T, Refusal>) -> Result<T, u8> {
    answer.map_err(Refusal::number)
}

impl Store {
    /// A fresh image in a buffer of just its length.
    pub fn fresh(p: u64, s: u64, j: u64) -> Store {
        Store::of(Sizes { p, s, j, l: 0 })
    }

    pub fn of(sizes: Sizes) -> Store {
        let mut image = vec![0xaa; sizes.image_length()];
        let state = format(sizes, &mut image).expect("sizes in range");
        Store { state, image }
    }

    pub fn word(&self, at: usize) -> u64 {
        word(&self.image, at)
    }

    pub fn begin(&mut self, writer: u64) -> Answer {
        numbered(calls::begin(&mut self.state, writer))
    }

    pub fn begin_wide(&mut self, writer: u64) -> Answer {
        numbered(calls::begin_wide(&mut self.state, writer))
    }

    pub fn abort(&mut self, writer: u64) -> Answer {
        numbered(calls::abort(&mut self.state, writer))
    }

    /// Asks for a write of one byte at offset 0, and no more.
    pub fn ask_write(&mut self, writer: u64, page: u64, line: u64, byte: u8) -> Answer {
        let patch = Patch { offset: 0, length: 1, data: &[byte] };
        numbered(calls::write(&mut self.state, &self.image, (writer, page, line), patch))
    }

    pub fn ask_commit(&mut self, writer: u64) -> Answer {
        numbered(calls::commit(&mut self.state, &self.image, writer))
    }

    pub fn ask_prepare(&mut self, writer: u64) -> Answer {
        numbered(calls::prepare(&mut self.state, &self.image, writer))
    }

    pub fn ask_confirm(&mut self, writer: u64) -> Answer {
        numbered(calls::confirm(&mut self.state, &self.image, writer))
    }

    pub fn withdraw(&mut self, writer: u64) -> Answer {
        numbered(calls::withdraw(&mut self.state, &self.image, writer))
    }

    pub fn ask_consolidate(&mut self, page: u64) -> Answer {
        numbered(calls::consolidate(&mut self.state, &self.image, page))
    }

    pub fn ask_free_slot(&mut self) -> Answer {
        numbered(calls::free_slot(&mut self.state, &self.image))
    }

    pub fn ask_checkpoint(&mut self) -> Answer {
        numbered(calls::checkpoint(&mut self.state, &self.image))
    }

    pub fn ask_event(&mut self, kind: u64, meter: u64, amount: u64) -> Answer {
        self.ask_event_with(kind, meter, amount, &fixed_moduli())
    }

    pub fn ask_event_with(&mut self, kind: u64, meter: u64, amount: u64, moduli: &[u64]) -> Answer {
        numbered(calls::event(&mut self.state, &self.image, Asked { kind, meter, amount }, moduli))
    }

    pub fn load(&self, text: &[u8]) -> Result<Vec<u64>, u8> {
        numbered(calls::load(&self.state, &self.image, text))
    }

    pub fn run(&mut self, k: u64) -> Answer {
        numbered(calls::run(&mut self.state, &mut self.image, k))
    }

    pub fn step(&mut self) -> Answer {
        numbered(calls::step(&mut self.state, &mut self.image))
    }

    /// Runs what was asked for to its end; a taken call makes as many stores as it said.
    fn finish(&mut self, asked: Answer) -> Answer {
        let needed = asked?;
        if needed > 0 {
            assert_eq!(self.run(u64::MAX), Ok(needed));
        }
        assert_eq!(self.state.pending, None);
        Ok(needed)
    }

    pub fn write(&mut self, writer: u64, page: u64, line: u64, byte: u8) -> Answer {
        let asked = self.ask_write(writer, page, line, byte);
        self.finish(asked)
    }

    pub fn commit(&mut self, writer: u64) -> Answer {
        let asked = self.ask_commit(writer);
        self.finish(asked)
    }

    pub fn prepare(&mut self, writer: u64) -> Answer {
        let asked = self.ask_prepare(writer);
        self.finish(asked)
    }

    pub fn confirm(&mut self, writer: u64) -> Answer {
        let asked = self.ask_confirm(writer);
        self.finish(asked)
    }

    pub fn consolidate(&mut self, page: u64) -> Answer {
        let asked = self.ask_consolidate(page);
        self.finish(asked)
    }

    pub fn free_slot(&mut self) -> Answer {
        let asked = self.ask_free_slot();
        self.finish(asked)
    }

    pub fn event(&mut self, kind: u64, meter: u64, amount: u64) -> Answer {
        let asked = self.ask_event(kind, meter, amount);
        self.finish(asked)
    }

    pub fn checkpoint(&mut self) -> Answer {
        let asked = self.ask_checkpoint();
        self.finish(asked)
    }

    /// The first byte of a line as a writer reads it.
    pub fn read(&self, writer: u64, page: u64, line: u64) -> Result<u8, u8> {
        let mut target = [0; 64];
        numbered(calls::read(&self.state, &self.image, (writer, page, line), &mut target))?;
        Ok(target[0])
    }

    pub fn mount(&mut self) -> Result<(), u8> {
        self.state = numbered(mount(&self.image))?;
        Ok(())
    }
}
