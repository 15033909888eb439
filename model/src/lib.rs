//! An independent model of the store, written from documents 01 and 02 alone.
//!
//! It is plain rather than quick: names of frames are counted, operations are listed store by store, and what
//! can be worked out again is worked out again. Modules from the bottom up:
//!
//! - `refusal`: the numbered answers
//! - `layout`, `image`: where each word lies, and reading and writing words
//! - `slots`, `journal`: a slot's three words and its shapes; records, positions, live counts
//! - `meters`: events, the numbers that they move, and the moduli as text (document 02)
//! - `state`: what the host keeps between calls
//! - `wide`: rounds wider than the slots (document 02, L14)
//! - `fresh`: a fresh image and its state
//! - `rows`: the refusal table from row 11 on
//! - `plan`: the stores that an operation needs, and the change that comes with its last store
//! - `validity`: row 8
//! - `mount`: format, mount, recall (rows 1 to 7)
//! - `calls`: every call that takes a state
//! - `script`: the programs powerhit, probe and wear_by_frame as functions from bytes to bytes
//! - `compare`: random scripts, and holding another program against this one

pub mod calls;
pub mod compare;
pub mod fresh;
pub mod image;
pub mod journal;
pub mod layout;
pub mod meters;
pub mod mount;
pub mod plan;
pub mod refusal;
pub mod rows;
pub mod script;
pub mod slots;
pub mod state;
pub mod validity;
pub mod wide;
