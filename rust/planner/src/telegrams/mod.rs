//! Telegrams out of captures and texts, and what each adds to the total of a group. Every decision
//! is the library's: its readers say what a datagram is, its table of channels which request is new,
//! its station what is counted.

mod account;
mod aside;
mod ledger;
pub mod lines;
mod session;
mod way;

pub use account::{Account, Counts, MonthSum};
pub use aside::Aside;
pub use ledger::{Crowded, Ledger, Question};
pub use way::Way;

use crate::frame::Frame;
use klumdray::cemi::{self, Code};
use klumdray::{tp1, Meaning, Refusal};

/// What a cEMI message says, in whatever it came.
struct Message<'a> {
    code: Code,
    meaning: Meaning,
    payload: &'a [u8],
}

impl<'a> From<cemi::Frame<'a>> for Message<'a> {
    fn from(frame: cemi::Frame<'a>) -> Message<'a> {
        Message {
            code: frame.code,
            meaning: frame.meaning,
            payload: frame.payload(),
        }
    }
}

impl<'a> Message<'a> {
    /// Of a frame that was told; none on TP1.
    fn of(frame: &Frame<'a>) -> Option<Message<'a>> {
        frame.message.map(|message| Message {
            code: message.code,
            meaning: frame.meaning,
            payload: frame.payload,
        })
    }

    /// The TP1 frame of the same meaning and payload, so that one rule for repetitions serves every
    /// form.
    fn on_tp1<'r>(&self, room: &'r mut [u8; tp1::FRAME_SIZE]) -> Result<&'r [u8], Refusal> {
        let size = tp1::write(&self.meaning, self.payload, room)?;
        Ok(&room[..size])
    }
}
