//! KNXnet/IP TUNNELLING_REQUEST and TUNNELLING_ACK, alone and on a table of four channels.

use crate::answer::{acknowledgement, raised, written, Reading};
use crate::cemi::{Code, Frame};
use crate::{raw, Meaning, Refusal};

/// The channels of a table, numbered from 1 on.
pub const CHANNELS: usize = 4;

/// The octets of a channel: open or closed, receive counter, send counter.
pub const CHANNEL_SIZE: usize = 3;

/// The octets of a table of channels.
pub const CHANNELS_SIZE: usize = CHANNELS * CHANNEL_SIZE;

/// The octets of an acknowledgement, and of what a request begins with.
pub const ACKNOWLEDGEMENT_SIZE: usize = 10;

/// What stands for an open channel; every other octet is a closed one's.
const OPEN: u8 = 1;

/// An accepted request over the caller's octets.
#[derive(Clone, Copy, Debug, PartialEq, Eq)]
pub struct Request<'a> {
    /// The channel that it names.
    pub channel: u8,
    /// Its counter.
    pub counter: u8,
    /// The message in it.
    pub frame: Frame<'a>,
}

impl<'a> Request<'a> {
    /// Takes an accepted request apart.
    #[inline]
    fn new(octets: &'a [u8], reading: Reading) -> Request<'a> {
        Request {
            channel: octets[7],
            counter: octets[8],
            frame: Frame::new(octets, reading, ACKNOWLEDGEMENT_SIZE),
        }
    }
}

/// An acknowledgement.
#[derive(Clone, Copy, Debug, PartialEq, Eq)]
pub struct Acknowledgement {
    /// The channel that it names.
    pub channel: u8,
    /// The counter of the request that it is for.
    pub counter: u8,
    /// 00h, or why the request was not taken.
    pub status: u8,
}

/// Reads one request, whatever its channel and counter are; refusals in the order 1, 10, 11, 12, 1
/// below 10 octets, 19, then those of [`crate::cemi::read`].
///
/// ```
/// use klumdray::cemi::Code;
/// use klumdray::{tunnelling, Refusal};
/// let octets = [
///     0x06, 0x10, 0x04, 0x20, 0x00, 0x15, 0x04, 0x01, 0x00, 0x00,
///     0x11, 0x00, 0xbc, 0xe0, 0x00, 0x00, 0x12, 0x34, 0x01, 0x00, 0x81,
/// ];
/// let request = tunnelling::read_request(&octets)?;
/// assert_eq!((request.channel, request.counter), (1, 0));
/// assert_eq!(request.frame.code, Code::Request);
/// assert_eq!(request.frame.payload(), [0x00, 0x81]);
///
/// assert_eq!(tunnelling::read_request(&octets[..20]), Err(Refusal::TOTAL_LENGTH));
/// # Ok::<(), Refusal>(())
/// ```
#[inline]
pub fn read_request(octets: &[u8]) -> Result<Request<'_>, Refusal> {
    let reading = Reading::accepted(raw::tunnelling_request_read(octets))?;
    Ok(Request::new(octets, reading))
}

/// Writes one request with a plain message to the front of the room and returns its size. Refusals:
/// 14, also for an error mark outside a confirmation; then 13 exactly when the room is below that
/// size. Octets behind the request stay, and after a refusal all do.
///
/// ```
/// use klumdray::cemi::Code;
/// use klumdray::{tunnelling, Meaning, Refusal};
/// let meaning = Meaning {
///     extended: false, first_sending: true, priority: 3,
///     source: 0, group: true, destination: 0x1234, count: 6,
/// };
/// let mut room = [0; 21];
/// let size = tunnelling::write_request(
///     1, 255, Code::Indication, false, &meaning, &[0x00, 0x81], &mut room,
/// )?;
/// assert_eq!(size, 21);
/// assert_eq!(room[..10], [0x06, 0x10, 0x04, 0x20, 0x00, 0x15, 0x04, 0x01, 0xff, 0x00]);
/// assert_eq!(tunnelling::read_request(&room)?.frame.meaning, meaning);
///
/// let refused =
///     tunnelling::write_request(1, 255, Code::Indication, true, &meaning, &[0x00], &mut room);
/// assert_eq!(refused, Err(Refusal::RANGE));
/// # Ok::<(), Refusal>(())
/// ```
#[inline]
pub fn write_request(
    channel: u8,
    counter: u8,
    code: Code,
    error_mark: bool,
    meaning: &Meaning,
    payload: &[u8],
    room: &mut [u8],
) -> Result<usize, Refusal> {
    written(raw::tunnelling_request_write(
        channel.into(),
        counter.into(),
        code.octet().into(),
        error_mark.into(),
        &meaning.numbers(),
        payload,
        room,
    ))
}

/// Reads one acknowledgement, whatever it says; refusals in the order 1, 10, 11, 12, 1 below 10
/// octets, 19, 5.
///
/// ```
/// use klumdray::tunnelling::{self, Acknowledgement};
/// use klumdray::Refusal;
/// let octets = [0x06, 0x10, 0x04, 0x21, 0x00, 0x0a, 0x04, 0x02, 0x07, 0x29];
/// let acknowledgement = Acknowledgement { channel: 2, counter: 7, status: 0x29 };
/// assert_eq!(tunnelling::read_acknowledgement(&octets), Ok(acknowledgement));
/// assert_eq!(tunnelling::read_acknowledgement(&octets[..5]), Err(Refusal::TOO_FEW));
/// ```
#[inline]
pub fn read_acknowledgement(octets: &[u8]) -> Result<Acknowledgement, Refusal> {
    acknowledgement(raw::tunnelling_ack_read(octets))
}

/// Writes one acknowledgement to the front of the room and returns its size, which is 10. Refusal:
/// 13 exactly when the room is below that. Octets behind the acknowledgement stay, and after a
/// refusal all do.
///
/// ```
/// use klumdray::tunnelling::{self, Acknowledgement};
/// use klumdray::Refusal;
/// let acknowledgement = Acknowledgement { channel: 2, counter: 7, status: 0x29 };
/// let mut room = [0x55; 11];
/// assert_eq!(tunnelling::write_acknowledgement(&acknowledgement, &mut room), Ok(10));
/// assert_eq!(room, [0x06, 0x10, 0x04, 0x21, 0x00, 0x0a, 0x04, 0x02, 0x07, 0x29, 0x55]);
///
/// let refused = tunnelling::write_acknowledgement(&acknowledgement, &mut room[..9]);
/// assert_eq!(refused, Err(Refusal::ROOM));
/// ```
#[inline]
pub fn write_acknowledgement(
    acknowledgement: &Acknowledgement,
    room: &mut [u8],
) -> Result<usize, Refusal> {
    written(raw::tunnelling_ack_write(
        acknowledgement.channel.into(),
        acknowledgement.counter.into(),
        acknowledgement.status.into(),
        room,
    ))
}

/// The counters of an open channel.
#[derive(Clone, Copy, Debug, PartialEq, Eq)]
pub struct Channel {
    /// The counter expected in the next request received.
    pub receive: u8,
    /// The counter of the request to send, until it is acknowledged.
    pub send: u8,
}

/// What became of a request that is not refused.
#[derive(Clone, Copy, Debug, PartialEq, Eq)]
#[must_use = "the acknowledgement is to be sent"]
pub struct Received<'a, 'r> {
    /// The request, if it is delivered; none if it is acknowledged again.
    pub delivered: Option<Request<'a>>,
    /// The octets to send back, the first 10 of the room.
    pub acknowledgement: &'r [u8],
}

/// A table of channels, each open with its counters or closed.
#[derive(Clone, Debug, PartialEq, Eq)]
pub struct Channels([u8; CHANNELS_SIZE]);

impl Channels {
    /// The table at the start: every channel is closed.
    ///
    /// ```
    /// use klumdray::tunnelling::Channels;
    /// assert!((0..=255).all(|number| Channels::closed().channel(number).is_none()));
    /// ```
    #[inline]
    pub fn closed() -> Channels {
        Channels([0; CHANNELS_SIZE])
    }

    /// Opens a channel, with both counters 0, and says whether there is one of this number: 1 to 4.
    ///
    /// ```
    /// use klumdray::tunnelling::{Channel, Channels};
    /// let mut channels = Channels::closed();
    /// assert!(channels.open(4));
    /// assert_eq!(channels.channel(4), Some(Channel { receive: 0, send: 0 }));
    /// assert!(!channels.open(0) && !channels.open(5));
    /// ```
    #[inline]
    pub fn open(&mut self, number: u8) -> bool {
        self.set(number, [OPEN, 0, 0])
    }

    /// Closes a channel, and says whether there is one of this number: 1 to 4.
    ///
    /// ```
    /// use klumdray::tunnelling::Channels;
    /// let mut channels = Channels::closed();
    /// channels.open(1);
    /// assert!(channels.close(1));
    /// assert_eq!(channels, Channels::closed());
    /// assert!(!channels.close(0) && !channels.close(5));
    /// ```
    #[inline]
    pub fn close(&mut self, number: u8) -> bool {
        self.set(number, [0; CHANNEL_SIZE])
    }

    /// The counters of an open channel; none of a closed one, or where no channel has this number.
    ///
    /// ```
    /// use klumdray::tunnelling::{Channel, Channels};
    /// let mut channels = Channels::closed();
    /// channels.open(2);
    /// assert_eq!(channels.channel(2), Some(Channel { receive: 0, send: 0 }));
    /// assert_eq!(channels.channel(1), None);
    /// assert_eq!(channels.channel(5), None);
    /// ```
    #[inline]
    pub fn channel(&self, number: u8) -> Option<Channel> {
        let place = place(number)?;
        match self.0[place..place + CHANNEL_SIZE] {
            [OPEN, receive, send] => Some(Channel { receive, send }),
            _ => None,
        }
    }

    /// A request arrives. With the counter expected it is delivered and acknowledged, and the
    /// receive counter is raised, 255 going to 0. One behind, it is acknowledged again and not
    /// delivered. Any other is refused by 21. Refusals: 13 exactly when the room is below 10
    /// octets, then those of [`read_request`], with 20 and 21 behind 19. Octets of the room behind
    /// the acknowledgement stay; after a refusal all do, and the table too.
    ///
    /// ```
    /// use klumdray::tunnelling::{Channels, ACKNOWLEDGEMENT_SIZE};
    /// use klumdray::Refusal;
    /// let mut octets = [
    ///     0x06, 0x10, 0x04, 0x20, 0x00, 0x15, 0x04, 0x01, 0x00, 0x00,
    ///     0x11, 0x00, 0xbc, 0xe0, 0x00, 0x00, 0x12, 0x34, 0x01, 0x00, 0x81,
    /// ];
    /// let (mut channels, mut room) = (Channels::closed(), [0; ACKNOWLEDGEMENT_SIZE]);
    /// assert_eq!(channels.receive(&octets, &mut room), Err(Refusal::CHANNEL));
    ///
    /// channels.open(1);
    /// let received = channels.receive(&octets, &mut room)?;
    /// assert_eq!(received.delivered.unwrap().frame.payload(), [0x00, 0x81]);
    /// let acknowledgement = [0x06, 0x10, 0x04, 0x21, 0x00, 0x0a, 0x04, 0x01, 0x00, 0x00];
    /// assert_eq!(received.acknowledgement, acknowledgement);
    ///
    /// let received = channels.receive(&octets, &mut room)?;
    /// assert_eq!(received.delivered, None);
    /// assert_eq!(received.acknowledgement, acknowledgement);
    ///
    /// octets[8] = 2;
    /// assert_eq!(channels.receive(&octets, &mut room), Err(Refusal::COUNTER));
    /// assert_eq!(channels.channel(1).unwrap().receive, 1);
    /// # Ok::<(), Refusal>(())
    /// ```
    #[inline]
    pub fn receive<'a, 'r>(
        &mut self,
        octets: &'a [u8],
        room: &'r mut [u8],
    ) -> Result<Received<'a, 'r>, Refusal> {
        let answer = raw::tunnelling_receive(&mut self.0, octets, room);
        let reading = Reading::accepted(answer)?;
        Ok(Received {
            delivered: reading.has_code().then(|| Request::new(octets, reading)),
            acknowledgement: &room[..ACKNOWLEDGEMENT_SIZE],
        })
    }

    /// Writes one request with a plain message and the channel's send counter to the front of the
    /// room and returns its size. The counter stays until the request is acknowledged. Refusals: 14
    /// as of [`crate::cemi::write`], 20, then 13 exactly when the room is below that size. Octets
    /// behind the request stay, and after a refusal all do.
    ///
    /// ```
    /// use klumdray::cemi::Code;
    /// use klumdray::tunnelling::Channels;
    /// use klumdray::{Meaning, Refusal};
    /// let meaning = Meaning {
    ///     extended: false, first_sending: true, priority: 3,
    ///     source: 0, group: true, destination: 0x1234, count: 6,
    /// };
    /// let (mut channels, mut room) = (Channels::closed(), [0; 20]);
    /// let refused = channels.send(3, Code::Indication, false, &meaning, &[0x00], &mut room);
    /// assert_eq!(refused, Err(Refusal::CHANNEL));
    ///
    /// channels.open(3);
    /// assert_eq!(channels.send(3, Code::Indication, false, &meaning, &[0x00], &mut room)?, 20);
    /// assert_eq!(room[6..10], [0x04, 0x03, 0x00, 0x00]);
    /// # Ok::<(), Refusal>(())
    /// ```
    #[inline]
    pub fn send(
        &self,
        channel: u8,
        code: Code,
        error_mark: bool,
        meaning: &Meaning,
        payload: &[u8],
        room: &mut [u8],
    ) -> Result<usize, Refusal> {
        written(raw::tunnelling_send(
            &self.0,
            channel.into(),
            code.octet().into(),
            error_mark.into(),
            &meaning.numbers(),
            payload,
            room,
        ))
    }

    /// An acknowledgement arrives. With its channel's send counter and status 00h it raises that
    /// counter, 255 going to 0; with another status it changes nothing. Whether the counter was
    /// raised. Refusals: 1, 10, 11, 12, 1 below 10 octets, 19, 20, 21, 5; after them the table is as
    /// it was.
    ///
    /// ```
    /// use klumdray::tunnelling::Channels;
    /// use klumdray::Refusal;
    /// let mut channels = Channels::closed();
    /// channels.open(2);
    /// let mut octets = [0x06, 0x10, 0x04, 0x21, 0x00, 0x0a, 0x04, 0x02, 0x00, 0x29];
    /// assert_eq!(channels.confirm(&octets), Ok(false));
    /// octets[9] = 0x00;
    /// assert_eq!(channels.confirm(&octets), Ok(true));
    /// assert_eq!(channels.channel(2).unwrap().send, 1);
    /// assert_eq!(channels.confirm(&octets), Err(Refusal::COUNTER));
    /// ```
    #[inline]
    pub fn confirm(&mut self, octets: &[u8]) -> Result<bool, Refusal> {
        raised(raw::tunnelling_confirm(&mut self.0, octets))
    }

    /// Sets a channel's octets, where there is one of this number.
    fn set(&mut self, number: u8, octets: [u8; CHANNEL_SIZE]) -> bool {
        let place = place(number);
        if let Some(place) = place {
            self.0[place..place + CHANNEL_SIZE].copy_from_slice(&octets);
        }
        place.is_some()
    }
}

impl Default for Channels {
    #[inline]
    fn default() -> Channels {
        Channels::closed()
    }
}

/// Where a channel's octets begin in the table.
#[inline]
fn place(number: u8) -> Option<usize> {
    let place = usize::from(number).checked_sub(1)?;
    (place < CHANNELS).then_some(place * CHANNEL_SIZE)
}
