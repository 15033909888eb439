//! What is set: the lines L, Y, U, T, O, Q, m and k.

use super::{Session, BUFFER};
use crate::image::put_word;
use crate::layout::{MOST_ENTRIES, MOST_PAGES, MOST_SLOTS};
use crate::meters::{Asked, METERS};
use crate::state::{Event, Operation, Pending, State, WideWrite, Write, WRITERS};

impl Session {
    /// None for a line of another form.
    pub(super) fn set(&mut self, letter: u8, numbers: &[u64]) -> Option<()> {
        match (letter, numbers) {
            (b'L', &[n]) => self.lent = below(n, BUFFER + 1)?,
            (b'Y', &[at, value]) => {
                let value = u8::try_from(value).ok()?;
                self.buffer[below(at, BUFFER)?] = value;
            }
            (b'U', &[i, value]) => put_word(&mut self.buffer, 8 * below(i, BUFFER / 8)?, value),
            (b'T', &[field, i, value]) => set_number(&mut self.state, field, i, value)?,
            (b'O', &[kind, a, b, c, d, e, made]) => {
                let operation = operation(kind, [a, b, c, d, e])?;
                self.state.pending = operation.map(|operation| Pending { operation, made });
            }
            (b'Q', &[i, value]) => set_finished_byte(&mut self.state, i, value)?,
            (b'm', &[i, value]) => self.moduli[below(i, METERS)?] = value,
            (b'k', &[n]) => self.moduli_lent = below(n, METERS + 1)?,
            _ => return None,
        }
        Some(())
    }
}

/// A number as a place, if it is below a limit.
fn below(number: u64, limit: usize) -> Option<usize> {
    usize::try_from(number).ok().filter(|&place| place < limit)
}

fn set_number(state: &mut State, field: u64, i: u64, value: u64) -> Option<()> {
    match field {
        0..=5 | 14..=16 | 18 => {
            below(i, 1)?;
            set_single(state, field, value);
        }
        6..=10 => set_slot_number(state, field, below(i, MOST_SLOTS)?, value)?,
        11 => state.writers[below(i, WRITERS)?].open = below(value, 2)? == 1,
        12 => {
            let place = below(i, WRITERS * MOST_SLOTS)?;
            state.writers[place / MOST_SLOTS].held[place % MOST_SLOTS] = value;
        }
        13 => {
            let page = below(i, MOST_PAGES)?;
            state.map[page] = u64::from(u16::try_from(value).ok()?);
        }
        17 => state.wide.keys[below(i, MOST_ENTRIES)?] = value,
        _ => return None,
    }
    Some(())
}

fn set_single(state: &mut State, field: u64, value: u64) {
    let writer = Some(value).filter(|&writer| writer < WRITERS as u64);
    match field {
        0 => state.sizes.p = value,
        1 => state.sizes.s = value,
        2 => state.sizes.j = value,
        3 => state.head = value,
        4 => state.tail = value,
        5 => state.next = value,
        14 => state.prepared = writer,
        15 => state.wide.writer = writer,
        16 => state.wide.used = value,
        18 => state.sizes.l = value,
        _ => unreachable!("the other fields have places"),
    }
}

fn set_slot_number(state: &mut State, field: u64, slot: usize, value: u64) -> Option<()> {
    let frame = u32::try_from(value).ok().map(u64::from);
    match field {
        6 => state.slots[slot].page = value,
        7 => state.slots[slot].original = frame?,
        8 => state.slots[slot].spare = frame?,
        9 => state.slots[slot].bitmap = value,
        _ => state.last[slot] = Some(value).filter(|&position| position != u64::MAX),
    }
    Some(())
}

/// The operation of a kind, none for kind 0. "Fields that a kind does not have are read and dropped. Both finished lines
/// become zeros."
fn operation(kind: u64, [a, b, c, d, e]: [u64; 5]) -> Option<Option<Operation>> {
    let finished = [0; 64];
    Some(Some(match kind {
        0 => return Some(None),
        1 => Operation::Write(Write { writer: a, page: b, line: c, offset: d, length: e, finished }),
        2 => Operation::Commit { writer: a },
        3 => Operation::Consolidate { page: a },
        4 => Operation::Checkpoint,
        5 => {
            let asked = Asked { kind: a, meter: b, amount: c };
            Operation::Event(Event { asked, finished: [finished; 2] })
        }
        6 => Operation::Prepare { writer: a },
        7 => Operation::Confirm { writer: a },
        8 => Operation::WideWrite(WideWrite { page: a, line: b, offset: c, length: d, finished }),
        9 => Operation::Copying,
        10 => Operation::Format,
        _ => return None,
    }))
}

/// "of an event, i from 64 to 127 is byte i − 64 of its second line. Of another form where no such operation is pending"
fn set_finished_byte(state: &mut State, i: u64, value: u64) -> Option<()> {
    let (value, i) = (u8::try_from(value).ok()?, usize::try_from(i).ok()?);
    let byte = match &mut state.pending.as_mut()?.operation {
        Operation::Write(write) => write.finished.get_mut(i)?,
        Operation::WideWrite(write) => write.finished.get_mut(i)?,
        Operation::Event(event) => event.finished.as_flattened_mut().get_mut(i)?,
        _ => return None,
    };
    *byte = value;
    Some(())
}
