//! A tunnelling session as it is overheard: which of its requests are new.

use klumdray::tunnelling::{Channels, ACKNOWLEDGEMENT_SIZE};
use klumdray::Refusal;

/// The channel that the session stands as in its own table: gateways number sessions to 255, a
/// table has fewer.
const CHANNEL: u8 = 1;
const CHANNEL_PLACE: usize = 7;
const COUNTER_PLACE: usize = 8;

/// One session in a table of its own.
#[derive(Clone, Debug)]
pub struct Session {
    channels: Channels,
    /// The counter that the channel was opened at. The table opens a channel at 0, so counters are
    /// counted from this one; they run in a ring.
    opened_at: u8,
}

/// What became of a request.
#[derive(Clone, Copy, Debug, PartialEq, Eq)]
pub struct Overheard {
    /// Whether it is new, or else one that was sent again.
    pub is_new: bool,
    /// Whether requests before it are missing, or the session was opened anew unheard.
    pub is_behind_gap: bool,
}

impl Session {
    /// A session of which nothing has been heard.
    pub fn new() -> Session {
        Session {
            channels: Channels::closed(),
            opened_at: 0,
        }
    }

    /// Its next request opens it.
    pub fn end(&mut self) {
        self.channels.close(CHANNEL);
    }

    /// A request that the reader accepts is heard. The first one opens the session at its counter,
    /// and so does one that is neither awaited nor one behind.
    ///
    /// The channel in the copy is the session's own, whatever the gateway calls it.
    pub fn hear(&mut self, request: &[u8]) -> Result<Overheard, Refusal> {
        let refusal = match self.receive(request) {
            Ok(is_new) => {
                return Ok(Overheard {
                    is_new,
                    is_behind_gap: false,
                })
            }
            Err(refusal) => refusal,
        };
        if ![Refusal::CHANNEL, Refusal::COUNTER].contains(&refusal) {
            return Err(refusal);
        }
        self.opened_at = request.get(COUNTER_PLACE).copied().unwrap_or_default();
        self.channels.open(CHANNEL);
        Ok(Overheard {
            is_new: self.receive(request)?,
            is_behind_gap: refusal == Refusal::COUNTER,
        })
    }

    /// Whether the table delivers a request, or acknowledges it again.
    fn receive(&mut self, request: &[u8]) -> Result<bool, Refusal> {
        let mut copy = request.to_vec();
        if let Some([channel, counter]) = copy.get_mut(CHANNEL_PLACE..=COUNTER_PLACE) {
            *channel = CHANNEL;
            *counter = counter.wrapping_sub(self.opened_at);
        }
        let mut room = [0; ACKNOWLEDGEMENT_SIZE];
        let received = self.channels.receive(&copy, &mut room)?;
        Ok(received.delivered.is_some())
    }
}
