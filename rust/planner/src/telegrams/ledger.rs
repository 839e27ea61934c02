//! All that was heard, way by way.

use super::session::Session;
use super::{Account, Aside, Message, Way};
use crate::calendar::{Moment, Offset};
use crate::capture::Datagram;
use crate::frame::{tell, Content, Frame, Kind, Told};
use klumdray::cemi::Code;
use klumdray::station::Taken;
use klumdray::{routing, tp1, tunnelling, Refusal};
use std::collections::HashMap;

/// No installation has as many; each is remembered.
pub const MOST_WAYS: usize = 4_096;

/// What is asked of the telegrams.
#[derive(Clone, Debug)]
pub struct Question {
    /// The group of the meter.
    pub group: u16,
    /// The hundredths that the total begins with.
    pub start: i64,
    /// Whether sums of months are kept.
    pub by_month: bool,
    /// The clock that months go by.
    pub place: Offset,
    /// The numbers of the ways that are taken for one; none where nothing is chosen.
    pub chosen: Vec<usize>,
}

/// More ways than are remembered.
#[derive(Clone, Copy, Debug, PartialEq, Eq)]
pub struct Crowded;

/// What was heard.
pub struct Ledger {
    /// What is asked.
    pub question: Question,
    accounts: Vec<Account>,
    places: HashMap<Way, usize>,
    sessions: HashMap<(Way, u8), Session>,
    /// How many ways have brought a telegram of the group.
    numbered: usize,
    /// The place of the account of the ways that are chosen.
    chosen: Option<usize>,
    /// What no way is known of.
    pub aside: Aside,
}

impl Ledger {
    /// Nothing has been heard.
    pub fn new(question: Question) -> Ledger {
        Ledger {
            question,
            accounts: Vec::new(),
            places: HashMap::new(),
            sessions: HashMap::new(),
            numbered: 0,
            chosen: None,
            aside: Aside::default(),
        }
    }

    /// Every way's account, in the order in which they were heard first.
    pub fn accounts(&self) -> &[Account] {
        &self.accounts
    }

    /// How many ways have a number.
    pub fn numbered(&self) -> usize {
        self.numbered
    }

    /// The account of the ways that were chosen, if one of them was heard.
    pub fn chosen(&self) -> Option<&Account> {
        self.chosen.map(|place| &self.accounts[place])
    }

    /// A datagram of the port: the readers are asked what it is.
    pub fn datagram(
        &mut self,
        datagram: &Datagram<'_>,
        time: Option<Moment>,
    ) -> Result<(), Crowded> {
        self.aside.blurred += u64::from(datagram.is_blurred);
        match routing::read(datagram.octets) {
            Ok(frame) => {
                let way = Way::routing(datagram);
                let place = self.place(way)?;
                self.accounts[place].compare(datagram, time);
                self.message(way, &frame.into(), time)
            }
            Err(Refusal::SERVICE) => self.tunnelled(datagram, time),
            Err(refusal) => {
                self.aside.counts.refuse(refusal);
                Ok(())
            }
        }
    }

    fn tunnelled(&mut self, datagram: &Datagram<'_>, time: Option<Moment>) -> Result<(), Crowded> {
        match tunnelling::read_request(datagram.octets) {
            Ok(request) => {
                let way = Way::tunnelling(datagram, request.channel);
                let message = request.frame.into();
                self.request(way, request.channel, datagram.octets, &message, time)?;
            }
            Err(Refusal::SERVICE) => {
                self.other_service(datagram.octets, |way| way.is_between(datagram));
            }
            Err(refusal) => self.aside.counts.refuse(refusal),
        }
        Ok(())
    }

    /// A line of a text: it is told apart as `decode` does it, or read as one kind.
    pub fn line(
        &mut self,
        octets: &[u8],
        kind: Option<Kind>,
        time: Option<Moment>,
    ) -> Result<(), Crowded> {
        match tell(octets, kind) {
            Told::Accepted(Content::Frame(frame)) => self.frame(octets, &frame, time)?,
            Told::Accepted(Content::Acknowledgement(_)) => self.aside.other_service(octets),
            Told::Refused(_, refusal) => self.aside.counts.refuse(refusal),
            Told::Untold { .. } => self.untold(octets),
        }
        Ok(())
    }

    fn frame(
        &mut self,
        octets: &[u8],
        frame: &Frame<'_>,
        time: Option<Moment>,
    ) -> Result<(), Crowded> {
        match (Message::of(frame), frame.tunnel) {
            (None, _) => self.take(Way::Text, octets, time),
            (Some(message), None) => self.message(Way::Text, &message, time),
            (Some(message), Some(tunnel)) => {
                self.request(Way::Text, tunnel.channel, octets, &message, time)
            }
        }
    }

    fn untold(&mut self, octets: &[u8]) {
        if routing::read(octets) != Err(Refusal::SERVICE) {
            self.aside.untold += 1;
            return;
        }
        self.other_service(octets, |way| *way == Way::Text);
    }

    /// A datagram of another service is told as such. A session that it opens begins anew, where
    /// its way is one between the datagram's ends.
    fn other_service(&mut self, octets: &[u8], is_between: impl Fn(&Way) -> bool) {
        self.aside.other_service(octets);
        let Some(channel) = opened_channel(octets) else {
            return;
        };
        for ((way, own), session) in &mut self.sessions {
            if *own == channel && is_between(way) {
                session.end();
            }
        }
    }

    /// A tunnelling request: its session's table says whether it is new.
    fn request(
        &mut self,
        way: Way,
        channel: u8,
        octets: &[u8],
        message: &Message<'_>,
        time: Option<Moment>,
    ) -> Result<(), Crowded> {
        let place = self.place(way)?;
        let session = self.sessions.entry((way, channel));
        let heard = session.or_insert_with(Session::new).hear(octets);
        let counts = &mut self.accounts[place].counts;
        match heard {
            Err(refusal) => counts.refuse(refusal),
            Ok(heard) => {
                counts.gaps += u64::from(heard.is_behind_gap);
                if heard.is_new {
                    return self.message(way, message, time);
                }
                counts.sent_again += 1;
            }
        }
        Ok(())
    }

    /// A message: an indication is taken as the TP1 frame that says the same.
    fn message(
        &mut self,
        way: Way,
        message: &Message<'_>,
        time: Option<Moment>,
    ) -> Result<(), Crowded> {
        let place = self.place(way)?;
        let counts = &mut self.accounts[place].counts;
        if message.code != Code::Indication {
            counts.not_indications += 1;
            return Ok(());
        }
        let mut room = [0; tp1::FRAME_SIZE];
        match message.on_tp1(&mut room) {
            Ok(frame) => return self.take(way, frame, time),
            Err(refusal) => counts.refuse(refusal),
        }
        Ok(())
    }

    /// A TP1 frame comes by a way: its station takes it.
    fn take(&mut self, way: Way, frame: &[u8], time: Option<Moment>) -> Result<(), Crowded> {
        let mut place = self.place(way)?;
        let mut taken = self.accounts[place].take(frame);
        let is_of_group = !matches!(taken, Ok(Taken::AnotherGroup));
        if is_of_group && self.is_unnumbered(place, &way) {
            let joined = self.number(place, &way);
            if joined != place {
                taken = self.accounts[joined].take(frame);
                place = joined;
            }
        }
        self.accounts[place].note(&self.question, taken, &way, time);
        Ok(())
    }

    fn is_unnumbered(&self, place: usize, way: &Way) -> bool {
        let ways = &self.accounts[place].ways;
        ways.iter()
            .any(|(number, own)| own == way && number.is_none())
    }

    /// Gives a way its number, at its first telegram of the group. From then on the ways that are
    /// chosen have one account, and one station: what it remembered of this way until now is of
    /// other groups.
    fn number(&mut self, place: usize, way: &Way) -> usize {
        self.numbered += 1;
        self.accounts[place].ways = vec![(Some(self.numbered), *way)];
        if !self.question.chosen.contains(&self.numbered) {
            return place;
        }
        let joined = *self.chosen.get_or_insert(place);
        if joined != place {
            let counts = std::mem::take(&mut self.accounts[place].counts);
            let ways = std::mem::take(&mut self.accounts[place].ways);
            self.accounts[joined].counts.add(&counts);
            self.accounts[joined].ways.extend(ways);
            self.places.insert(*way, joined);
        }
        joined
    }

    /// The account of a way, which begins with its first telegram.
    fn place(&mut self, way: Way) -> Result<usize, Crowded> {
        if let Some(place) = self.places.get(&way) {
            return Ok(*place);
        }
        if self.places.len() >= MOST_WAYS {
            return Err(Crowded);
        }
        self.accounts.push(Account::new(&self.question, way));
        self.places.insert(way, self.accounts.len() - 1);
        Ok(self.accounts.len() - 1)
    }
}

/// The channel that a CONNECT_RESPONSE without an error opens: octet 6, and the status is octet 7.
fn opened_channel(octets: &[u8]) -> Option<u8> {
    match *octets {
        [_, _, 0x02, 0x06, _, _, channel, 0x00, ..] => Some(channel),
        _ => None,
    }
}
