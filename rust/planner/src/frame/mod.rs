//! TP1 frames, cEMI messages, routing and tunnelling datagrams, told apart by the library's readers.

pub mod place;
mod record;
mod words;

pub use record::record;
pub use words::paragraph;

use klumdray::cemi::Code;
use klumdray::tunnelling::{self, Acknowledgement};
use klumdray::{cemi, routing, tp1, Meaning, Refusal};

/// What octets may be.
#[derive(Clone, Copy, Debug, PartialEq, Eq)]
pub enum Kind {
    /// A TP1 L_Data frame.
    Tp1,
    /// A cEMI L_Data message.
    Cemi,
    /// A KNXnet/IP routing datagram.
    Routing,
    /// A KNXnet/IP tunnelling request.
    Request,
    /// A KNXnet/IP tunnelling acknowledgement.
    Acknowledgement,
}

/// What accepted octets hold.
#[derive(Clone, Copy, Debug, PartialEq, Eq)]
pub enum Content<'a> {
    /// A frame.
    Frame(Frame<'a>),
    /// The acknowledgement of a tunnelling request, which has no frame in it.
    Acknowledgement(Acknowledgement),
}

/// An accepted frame over the octets read.
#[derive(Clone, Copy, Debug, PartialEq, Eq)]
pub struct Frame<'a> {
    /// Which reader accepted it.
    pub kind: Kind,
    /// What it says.
    pub meaning: Meaning,
    /// TPCI onward.
    pub payload: &'a [u8],
    /// What cEMI has around it; none on TP1.
    pub message: Option<Message<'a>>,
    /// What a tunnelling request has around that.
    pub tunnel: Option<Tunnel>,
}

/// What a cEMI message has and a TP1 frame has not.
#[derive(Clone, Copy, Debug, PartialEq, Eq)]
pub struct Message<'a> {
    /// The message code.
    pub code: Code,
    /// The error mark.
    pub error_mark: bool,
    /// The additional information.
    pub information: &'a [u8],
}

/// The tunnel that a request goes through.
#[derive(Clone, Copy, Debug, PartialEq, Eq)]
pub struct Tunnel {
    /// The channel.
    pub channel: u8,
    /// The request's counter on it.
    pub counter: u8,
}

/// What the library's readers say of octets.
#[derive(Clone, Debug, PartialEq, Eq)]
pub enum Told<'a> {
    /// A reader accepts them.
    Accepted(Content<'a>),
    /// This kind was asked for or is the only one that they may have been, and its reader refuses.
    Refused(Kind, Refusal),
    /// Each reader refuses, and it is not to be told which was meant.
    Untold {
        /// The kinds that they may have been: none, or more than one.
        likely: Vec<Kind>,
        /// What each reader says.
        refusals: Vec<(Kind, Refusal)>,
    },
}

impl Kind {
    /// The five kinds.
    pub const ALL: [Kind; 5] = [
        Kind::Tp1,
        Kind::Cemi,
        Kind::Routing,
        Kind::Request,
        Kind::Acknowledgement,
    ];

    /// Its name for people.
    pub fn name(self) -> &'static str {
        match self {
            Kind::Tp1 => "TP1",
            Kind::Cemi => "cEMI",
            Kind::Routing => "routing",
            Kind::Request => "tunnelling request",
            Kind::Acknowledgement => "tunnelling acknowledgement",
        }
    }

    /// Its name for scripts.
    pub fn token(self) -> &'static str {
        match self {
            Kind::Tp1 => "tp1",
            Kind::Cemi => "cemi",
            Kind::Routing => "routing",
            Kind::Request => "tunnelling_request",
            Kind::Acknowledgement => "tunnelling_ack",
        }
    }

    /// The service of a KNXnet/IP datagram.
    pub(crate) fn service(self) -> Option<[u8; 2]> {
        match self {
            Kind::Tp1 | Kind::Cemi => None,
            Kind::Routing => Some([0x05, 0x30]),
            Kind::Request => Some([0x04, 0x20]),
            Kind::Acknowledgement => Some([0x04, 0x21]),
        }
    }

    /// Asks this kind's reader.
    ///
    /// ```
    /// use planner::frame::{Content, Kind};
    /// let octets = [0xb0, 0xaf, 0xfe, 0x00, 0x00, 0xe1, 0x01, 0x00, 0xfe];
    /// let Ok(Content::Frame(frame)) = Kind::Tp1.read(&octets) else {
    ///     panic!("a TP1 frame");
    /// };
    /// assert_eq!(frame.payload, [0x01, 0x00]);
    /// assert_eq!(Kind::Cemi.read(&octets).unwrap_err().number(), 7);
    /// ```
    pub fn read(self, octets: &[u8]) -> Result<Content<'_>, Refusal> {
        let frame = match self {
            Kind::Tp1 => tp1::read(octets).map(|frame| Frame {
                kind: self,
                meaning: frame.meaning,
                payload: frame.payload(),
                message: None,
                tunnel: None,
            }),
            Kind::Cemi => cemi::read(octets).map(|frame| self.message(frame)),
            Kind::Routing => routing::read(octets).map(|frame| self.message(frame)),
            Kind::Request => tunnelling::read_request(octets).map(|request| Frame {
                tunnel: Some(Tunnel {
                    channel: request.channel,
                    counter: request.counter,
                }),
                ..self.message(request.frame)
            }),
            Kind::Acknowledgement => {
                return tunnelling::read_acknowledgement(octets).map(Content::Acknowledgement)
            }
        };
        frame.map(Content::Frame)
    }

    fn message(self, frame: cemi::Frame<'_>) -> Frame<'_> {
        Frame {
            kind: self,
            meaning: frame.meaning,
            payload: frame.payload(),
            message: Some(Message {
                code: frame.code,
                error_mark: frame.error_mark,
                information: frame.information(),
            }),
            tunnel: None,
        }
    }

    /// Whether this kind's reader, which refuses the octets, says that they begin as another kind.
    fn is_another(self, octets: &[u8], refusal: Refusal) -> bool {
        match self {
            Kind::Tp1 => refusal == Refusal::ANOTHER_KIND,
            Kind::Cemi => refusal == Refusal::MESSAGE_CODE,
            Kind::Routing | Kind::Request | Kind::Acknowledgement => {
                self.begins_another_header(octets)
            }
        }
    }

    /// Fewer than 6 octets are refused by 1 whatever they are: so the reader is asked about 6, where
    /// those of its own header stand for those that are missing.
    fn begins_another_header(self, octets: &[u8]) -> bool {
        let [high, low] = self.service().unwrap_or_default();
        let mut header = [0x06, 0x10, high, low, 0x00, 0x00];
        for (place, octet) in header.iter_mut().zip(octets) {
            *place = *octet;
        }
        let refusal = self.read(&header).err();
        matches!(refusal, Some(Refusal::HEADER | Refusal::SERVICE))
    }
}

impl Content<'_> {
    /// Which reader accepted it.
    pub fn kind(&self) -> Kind {
        match self {
            Content::Frame(frame) => frame.kind,
            Content::Acknowledgement(_) => Kind::Acknowledgement,
        }
    }
}

/// Asks the reader of one kind or, where none is given, all five.
///
/// ```
/// use klumdray::Refusal;
/// use planner::frame::{tell, Kind, Told};
/// assert_eq!(tell(&[0xbc], None), Told::Refused(Kind::Tp1, Refusal::TOO_FEW));
/// assert_eq!(tell(&[0x29], None), Told::Refused(Kind::Cemi, Refusal::TOO_FEW));
/// assert_eq!(tell(&[0x06, 0x10, 0x05], None), Told::Refused(Kind::Routing, Refusal::TOO_FEW));
/// assert!(matches!(tell(&[0xcc], None), Told::Untold { .. }));
/// assert_eq!(tell(&[0xcc], Some(Kind::Tp1)), Told::Refused(Kind::Tp1, Refusal::ANOTHER_KIND));
/// ```
pub fn tell(octets: &[u8], kind: Option<Kind>) -> Told<'_> {
    let Some(kind) = kind else {
        return tell_apart(octets);
    };
    match kind.read(octets) {
        Ok(content) => Told::Accepted(content),
        Err(refusal) => Told::Refused(kind, refusal),
    }
}

fn tell_apart(octets: &[u8]) -> Told<'_> {
    let mut refusals = Vec::new();
    for kind in Kind::ALL {
        match kind.read(octets) {
            Ok(content) => return Told::Accepted(content),
            Err(refusal) => refusals.push((kind, refusal)),
        }
    }
    let likely = |(kind, refusal): &&(Kind, Refusal)| !kind.is_another(octets, *refusal);
    let candidates: Vec<(Kind, Refusal)> = refusals.iter().filter(likely).copied().collect();
    match candidates[..] {
        [(kind, refusal)] => Told::Refused(kind, refusal),
        _ => Told::Untold {
            likely: candidates.iter().map(|(kind, _)| *kind).collect(),
            refusals,
        },
    }
}
