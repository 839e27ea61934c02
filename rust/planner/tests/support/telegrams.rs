//! Telegrams of a leak meter and others, laid out octet by octet from the public documents, without
//! the library.

/// The meter 4.7.21 and its group 2/2/52.
pub const METER: u16 = 0x4715;
pub const GROUP: u16 = 0x1234;

/// A telegram before it is put into a form.
#[derive(Clone, Debug, PartialEq, Eq)]
pub struct Telegram {
    pub first_sending: bool,
    pub source: u16,
    pub group: u16,
    pub payload: Vec<u8>,
}

/// An increment of the meter.
pub fn increment(code: u16) -> Telegram {
    let [high, low] = code.to_be_bytes();
    Telegram {
        first_sending: true,
        source: METER,
        group: GROUP,
        payload: vec![0x00, 0x80, high, low],
    }
}

/// Hundredths of a code, from document 02's sentence.
pub fn hundredths(code: u16) -> i64 {
    let (sign, exponent, mantissa) = (code >> 15, code >> 11 & 15, i64::from(code & 0x7ff));
    let number = if sign == 1 {
        mantissa - 2_048
    } else {
        mantissa
    };
    number * (1 << exponent)
}

impl Telegram {
    /// The same, marked repeated.
    pub fn repeated(&self) -> Telegram {
        Telegram {
            first_sending: false,
            ..self.clone()
        }
    }

    /// The same to another group.
    pub fn to(&self, group: u16) -> Telegram {
        Telegram {
            group,
            ..self.clone()
        }
    }

    fn control(&self) -> u8 {
        0x9c | if self.first_sending { 0x20 } else { 0 }
    }

    /// A standard TP1 frame with count 6.
    pub fn tp1(&self) -> Vec<u8> {
        let [s1, s0] = self.source.to_be_bytes();
        let [d1, d0] = self.group.to_be_bytes();
        let length = 0xe0 | (self.payload.len() - 1) as u8;
        let mut octets = vec![self.control(), s1, s0, d1, d0, length];
        octets.extend(&self.payload);
        octets.push(octets.iter().fold(0xff, |check, octet| check ^ octet));
        octets
    }

    /// A cEMI message with a code.
    pub fn cemi(&self, code: u8) -> Vec<u8> {
        let [s1, s0] = self.source.to_be_bytes();
        let [d1, d0] = self.group.to_be_bytes();
        let length = (self.payload.len() - 1) as u8;
        let mut octets = vec![code, 0, self.control(), 0xe0, s1, s0, d1, d0, length];
        octets.extend(&self.payload);
        octets
    }

    /// A routing datagram.
    pub fn routing(&self) -> Vec<u8> {
        datagram(0x0530, &self.cemi(0x29))
    }

    /// A tunnelling request with an indication.
    pub fn tunnelling(&self, channel: u8, counter: u8) -> Vec<u8> {
        request(channel, counter, &self.cemi(0x29))
    }
}

/// A tunnelling request with a message.
pub fn request(channel: u8, counter: u8, message: &[u8]) -> Vec<u8> {
    let mut octets = vec![4, channel, counter, 0];
    octets.extend(message);
    datagram(0x0420, &octets)
}

/// A CONNECT_RESPONSE that opens a channel: status, the gateway's end, tunnelling.
pub fn connect_response(channel: u8, status: u8) -> Vec<u8> {
    let end = [8, 1, 192, 168, 1, 10, 0x0e, 0x57];
    let mut octets = vec![channel, status];
    octets.extend(end);
    octets.extend([4, 4, 0x11, 0xfd]);
    datagram(0x0206, &octets)
}

/// A KNXnet/IP datagram.
pub fn datagram(service: u16, body: &[u8]) -> Vec<u8> {
    let [s1, s0] = service.to_be_bytes();
    let [t1, t0] = (6 + body.len() as u16).to_be_bytes();
    [&[0x06, 0x10, s1, s0, t1, t0], body].concat()
}

/// Octets as a line of a text.
pub fn line(octets: &[u8]) -> String {
    let pairs: Vec<String> = octets.iter().map(|octet| format!("{octet:02X}")).collect();
    pairs.join(" ")
}
