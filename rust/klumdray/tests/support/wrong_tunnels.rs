//! References with one rule of tunnelling turned round.

use crate::tunnels::{place, reference, Answer, Asked, Lent, Tunnel};
use crate::tunnels::{CHANNEL, CHANNEL_AT, COUNTER_AT, HEAD, OPEN, TABLE};

/// A channel's counters as places among its octets.
const RECEIVE: usize = 1;
const SEND: usize = 2;

/// The last of what both services begin with: 00h, or the status.
const LAST_AT: usize = HEAD - 1;
const FIRST_AT: usize = 6;

fn refused(number: u8) -> Answer<'static> {
    Answer::bare(number.into())
}

/// What the reference says, with nothing written.
fn tried<'a>(lent: &Lent<'a, '_>) -> Answer<'a> {
    reference(&mut Lent {
        asked: lent.asked,
        channels: &mut lent.channels.to_vec(),
        room: &mut lent.room.to_vec(),
    })
}

/// What the reference says of another datagram of the same length, with the parts put in their
/// places in this one.
fn as_if<'a>(lent: &mut Lent<'a, '_>, read_instead: &[u8]) -> Answer<'a> {
    let octets = lent.asked.octets().expect("a datagram");
    let asked = lent.asked.with_octets(read_instead).expect("a datagram");
    let answer = reference(&mut Lent {
        asked,
        channels: lent.channels,
        room: lent.room,
    });
    let here = |part: &[u8]| match part {
        [] => &[],
        _ => {
            let start = part.as_ptr() as usize - read_instead.as_ptr() as usize;
            &octets[start..start + part.len()]
        }
    };
    Answer {
        packed: answer.packed,
        payload: here(answer.payload),
        information: here(answer.information),
    }
}

/// The reference with another octet in the datagram, if it is there.
fn with_octet<'a>(lent: &mut Lent<'a, '_>, place: usize, octet: u8) -> Answer<'a> {
    let mut other = lent.asked.octets().expect("a datagram").to_vec();
    if let Some(changed) = other.get_mut(place) {
        *changed = octet;
    }
    as_if(lent, &other)
}

/// A datagram that arrives on a table of the right size, with the octets of the channel that it
/// names, if there is one.
fn arriving<'a>(lent: &Lent<'a, '_>) -> Option<(&'a [u8], usize)> {
    let octets = lent
        .asked
        .arriving()
        .filter(|octets| octets.len() >= HEAD)?;
    let place = place(octets[CHANNEL_AT]).filter(|_| lent.channels.len() == TABLE)?;
    Some((octets, place))
}

/// The same for a request alone.
fn received<'a>(lent: &Lent<'a, '_>) -> Option<(&'a [u8], usize)> {
    arriving(lent).filter(|_| matches!(lent.asked, Asked::Receive(_)))
}

/// The same for an acknowledgement alone.
fn confirmed<'a>(lent: &Lent<'a, '_>) -> Option<(&'a [u8], usize)> {
    arriving(lent).filter(|_| matches!(lent.asked, Asked::Confirm(_)))
}

fn is_again(lent: &Lent<'_, '_>, answer: &Answer<'_>) -> bool {
    received(lent).is_some() && answer.packed == 0
}

fn raise(lent: &mut Lent<'_, '_>, counter: usize) {
    let (_, place) = arriving(lent).expect("a channel");
    let counter = &mut lent.channels[place + counter];
    *counter = counter.wrapping_add(1);
}

fn raises_behind<'a>(lent: &mut Lent<'a, '_>) -> Answer<'a> {
    let answer = reference(lent);
    if is_again(lent, &answer) {
        raise(lent, RECEIVE);
    }
    answer
}

fn delivers_again<'a>(lent: &mut Lent<'a, '_>) -> Answer<'a> {
    let answer = reference(lent);
    match received(lent) {
        Some((octets, _)) if answer.packed == 0 => tried(&Lent {
            asked: Asked::ReadRequest(octets),
            channels: &mut [],
            room: &mut [],
        }),
        _ => answer,
    }
}

fn stays_at_255<'a>(lent: &mut Lent<'a, '_>) -> Answer<'a> {
    let answer = reference(lent);
    match received(lent) {
        Some((octets, place)) if answer.is_delivered() && octets[COUNTER_AT] == 255 => {
            lent.channels[place + RECEIVE] = 255;
        }
        _ => {}
    }
    answer
}

fn none_behind_0<'a>(lent: &mut Lent<'a, '_>) -> Answer<'a> {
    match received(lent) {
        Some((octets, place))
            if octets[COUNTER_AT] == 255
                && lent.channels[place + RECEIVE] == 0
                && tried(lent).packed == 0 =>
        {
            refused(21)
        }
        _ => reference(lent),
    }
}

fn acknowledges_the_expected<'a>(lent: &mut Lent<'a, '_>) -> Answer<'a> {
    let answer = reference(lent);
    if is_again(lent, &answer) {
        let (_, place) = received(lent).expect("a request");
        lent.room[COUNTER_AT] = lent.channels[place + RECEIVE];
    }
    answer
}

/// The reference with the channel that is named open, which is then set back.
fn as_if_open<'a>(lent: &mut Lent<'a, '_>, place: usize) -> Answer<'a> {
    let before = lent.channels[place];
    lent.channels[place] = OPEN;
    let answer = reference(lent);
    lent.channels[place] = before;
    answer
}

fn answers_closed<'a>(lent: &mut Lent<'a, '_>) -> Answer<'a> {
    match received(lent) {
        Some((_, place)) if tried(lent).number() == 20 => as_if_open(lent, place),
        _ => reference(lent),
    }
}

/// Takes every open octet but 00h for open.
fn any_octet_is_open<'a>(lent: &mut Lent<'a, '_>) -> Answer<'a> {
    match arriving(lent) {
        Some((_, place)) if lent.channels[place] > OPEN => as_if_open(lent, place),
        _ => reference(lent),
    }
}

/// The acknowledgement of a request, at the front of a room that may be too small for it.
fn acknowledge(lent: &mut Lent<'_, '_>, octets: &[u8]) {
    let numbers = [octets[CHANNEL_AT].into(), octets[COUNTER_AT].into(), 0];
    reference(&mut Lent {
        asked: Asked::WriteAcknowledgement(numbers),
        channels: &mut [],
        room: lent.room,
    });
}

fn acknowledges_21<'a>(lent: &mut Lent<'a, '_>) -> Answer<'a> {
    let answer = reference(lent);
    match received(lent) {
        Some((octets, _)) if answer.number() == 21 => acknowledge(lent, octets),
        _ => {}
    }
    answer
}

/// Takes a request one ahead for the expected one.
fn delivers_ahead<'a>(lent: &mut Lent<'a, '_>) -> Answer<'a> {
    match received(lent) {
        Some((octets, place))
            if tried(lent).number() == 21
                && octets[COUNTER_AT] == lent.channels[place + RECEIVE].wrapping_add(1) =>
        {
            lent.channels[place + RECEIVE] = octets[COUNTER_AT];
            reference(lent)
        }
        _ => reference(lent),
    }
}

fn copies_the_last<'a>(lent: &mut Lent<'a, '_>) -> Answer<'a> {
    let answer = reference(lent);
    match received(lent) {
        Some((octets, _)) if answer.number() == 0 => lent.room[LAST_AT] = octets[LAST_AT],
        _ => {}
    }
    answer
}

fn clears_room_behind<'a>(lent: &mut Lent<'a, '_>) -> Answer<'a> {
    let answer = reference(lent);
    if received(lent).is_some() && answer.number() == 0 {
        lent.room[HEAD..].fill(0);
    }
    answer
}

fn raises_the_other<'a>(lent: &mut Lent<'a, '_>) -> Answer<'a> {
    let before = lent.channels.to_vec();
    let answer = reference(lent);
    if lent.channels != before {
        lent.channels.copy_from_slice(&before);
        raise(lent, if answer.is_delivered() { SEND } else { RECEIVE });
    }
    answer
}

fn writes_another_channel<'a>(lent: &mut Lent<'a, '_>) -> Answer<'a> {
    let before = lent.channels.to_vec();
    let answer = reference(lent);
    if lent.channels != before {
        let (_, place) = arriving(lent).expect("a channel");
        lent.channels[(place + CHANNEL) % TABLE] = 0;
    }
    answer
}

/// The refusal of the message in a request that its channel awaits, or is one behind.
fn refused_message<'a>(lent: &Lent<'a, '_>) -> Option<(&'a [u8], usize)> {
    let (octets, place) = received(lent)?;
    let read = tried(&Lent {
        asked: Asked::ReadRequest(octets),
        channels: &mut [],
        room: &mut [],
    });
    let behind = lent.channels[place + RECEIVE].wrapping_sub(octets[COUNTER_AT]);
    let is_on = lent.channels[place] == OPEN && behind <= 1 && lent.room.len() >= HEAD;
    let is_cemi = read.number() == 1 || (3..10).contains(&read.number());
    (is_on && is_cemi).then_some((octets, place))
}

fn raises_on_a_refusal<'a>(lent: &mut Lent<'a, '_>) -> Answer<'a> {
    let is_expected = refused_message(lent)
        .is_some_and(|(octets, place)| octets[COUNTER_AT] == lent.channels[place + RECEIVE]);
    let answer = reference(lent);
    if is_expected {
        raise(lent, RECEIVE);
    }
    answer
}

fn behind_not_read<'a>(lent: &mut Lent<'a, '_>) -> Answer<'a> {
    match refused_message(lent) {
        Some((octets, place)) if octets[COUNTER_AT] != lent.channels[place + RECEIVE] => {
            acknowledge(lent, octets);
            Answer::bare(0)
        }
        _ => reference(lent),
    }
}

/// Takes channels by their number modulo 4: 5 for 1, 0 for 4.
fn modulo_4<'a>(lent: &mut Lent<'a, '_>) -> Answer<'a> {
    let octets = lent.asked.arriving().filter(|octets| octets.len() >= HEAD);
    match (lent.asked, octets) {
        (_, Some(octets)) => {
            let channel = octets[CHANNEL_AT];
            with_octet(lent, CHANNEL_AT, channel.wrapping_sub(1) % 4 + 1)
        }
        (Asked::Send(channel, message), _) => reference(&mut Lent {
            asked: Asked::Send(channel.wrapping_sub(1) % 4 + 1, message),
            channels: lent.channels,
            room: lent.room,
        }),
        _ => reference(lent),
    }
}

pub fn receiving() -> Vec<(&'static str, Box<Tunnel>)> {
    vec![
        ("raised on the one behind", Box::new(raises_behind)),
        ("delivered twice", Box::new(delivers_again)),
        ("255 not going to 0", Box::new(stays_at_255)),
        ("255 not behind on a fresh channel", Box::new(none_behind_0)),
        (
            "acknowledges the expected counter",
            Box::new(acknowledges_the_expected),
        ),
        ("a closed channel answered", Box::new(answers_closed)),
        ("open octet other than 01h", Box::new(any_octet_is_open)),
        ("21 acknowledged", Box::new(acknowledges_21)),
        ("one ahead delivered", Box::new(delivers_ahead)),
        ("octet 00h copied as the status", Box::new(copies_the_last)),
        ("clears the room behind", Box::new(clears_room_behind)),
        ("raises the other counter", Box::new(raises_the_other)),
        ("writes another channel", Box::new(writes_another_channel)),
        (
            "table changed on a cEMI refusal",
            Box::new(raises_on_a_refusal),
        ),
        ("one behind not read by cEMI", Box::new(behind_not_read)),
        ("channel modulo 4", Box::new(modulo_4)),
    ]
}

/// The send counter of the channel that a request goes out on.
fn sent(lent: &Lent<'_, '_>, answer: &Answer<'_>) -> Option<usize> {
    match lent.asked {
        Asked::Send(channel, _) if answer.number() == 0 => place(channel as u8),
        _ => None,
    }
}

fn raises_by_sending<'a>(lent: &mut Lent<'a, '_>) -> Answer<'a> {
    let answer = reference(lent);
    if let Some(place) = sent(lent, &answer) {
        lent.channels[place + SEND] = lent.channels[place + SEND].wrapping_add(1);
    }
    answer
}

fn sends_the_receive_counter<'a>(lent: &mut Lent<'a, '_>) -> Answer<'a> {
    let answer = reference(lent);
    if let Some(place) = sent(lent, &answer) {
        lent.room[COUNTER_AT] = lent.channels[place + RECEIVE];
    }
    answer
}

/// Whether a channel given to a sender is open.
fn is_open(lent: &Lent<'_, '_>, channel: u32) -> bool {
    let number = u8::try_from(channel).ok().and_then(place);
    number.is_some_and(|place| lent.channels[place] == OPEN)
}

fn twenty_before_fourteen<'a>(lent: &mut Lent<'a, '_>) -> Answer<'a> {
    match lent.asked {
        Asked::Send(channel, _) if lent.channels.len() == TABLE && !is_open(lent, channel) => {
            refused(20)
        }
        _ => reference(lent),
    }
}

fn thirteen_before_twenty<'a>(lent: &mut Lent<'a, '_>) -> Answer<'a> {
    match (lent.asked, tried(lent).number()) {
        (Asked::Send(_, message), 20) if lent.room.len() < message.size() => refused(13),
        _ => reference(lent),
    }
}

fn a_channel_has_a_range<'a>(lent: &mut Lent<'a, '_>) -> Answer<'a> {
    match (lent.asked, reference(lent)) {
        (Asked::Send(256.., _), _) => refused(14),
        (_, answer) => answer,
    }
}

fn sends_on_an_octet<'a>(lent: &mut Lent<'a, '_>) -> Answer<'a> {
    match lent.asked {
        Asked::Send(channel, message) => reference(&mut Lent {
            asked: Asked::Send(channel & 0xff, message),
            channels: lent.channels,
            room: lent.room,
        }),
        _ => reference(lent),
    }
}

fn room_of_ten_suffices<'a>(lent: &mut Lent<'a, '_>) -> Answer<'a> {
    match (lent.asked, reference(lent)) {
        (Asked::Send(_, message), answer) if answer.number() == 13 && lent.room.len() >= HEAD => {
            Answer::bare((message.size() as u64) << 8)
        }
        (_, answer) => answer,
    }
}

pub fn sending() -> Vec<(&'static str, Box<Tunnel>)> {
    vec![
        (
            "send counter raised by sending",
            Box::new(raises_by_sending),
        ),
        (
            "sends the receive counter",
            Box::new(sends_the_receive_counter),
        ),
        ("20 before 14", Box::new(twenty_before_fourteen)),
        ("13 before 20", Box::new(thirteen_before_twenty)),
        (
            "14 for a channel above 255",
            Box::new(a_channel_has_a_range),
        ),
        ("channel cut to an octet", Box::new(sends_on_an_octet)),
        ("a room of 10 suffices", Box::new(room_of_ten_suffices)),
    ]
}

fn ignores_the_status<'a>(lent: &mut Lent<'a, '_>) -> Answer<'a> {
    match confirmed(lent) {
        Some(_) => with_octet(lent, LAST_AT, 0x00),
        None => reference(lent),
    }
}

fn status_before_the_counter<'a>(lent: &mut Lent<'a, '_>) -> Answer<'a> {
    let answer = reference(lent);
    match confirmed(lent) {
        Some((octets, _)) if answer.number() == 21 && octets[LAST_AT] != 0x00 => Answer::bare(0),
        _ => answer,
    }
}

fn send_stays_at_255<'a>(lent: &mut Lent<'a, '_>) -> Answer<'a> {
    let answer = reference(lent);
    match confirmed(lent) {
        Some((octets, place)) if answer.packed == 1 << 8 && octets[COUNTER_AT] == 255 => {
            lent.channels[place + SEND] = 255;
        }
        _ => {}
    }
    answer
}

fn one_behind_is_known<'a>(lent: &mut Lent<'a, '_>) -> Answer<'a> {
    let answer = reference(lent);
    match confirmed(lent) {
        Some((octets, place))
            if answer.number() == 21
                && octets[COUNTER_AT] == lent.channels[place + SEND].wrapping_sub(1) =>
        {
            Answer::bare(0)
        }
        _ => answer,
    }
}

fn a_status_is_refused<'a>(lent: &mut Lent<'a, '_>) -> Answer<'a> {
    let answer = reference(lent);
    match confirmed(lent) {
        Some(_) if answer.packed == 0 => refused(21),
        _ => answer,
    }
}

fn five_before_twenty_one<'a>(lent: &mut Lent<'a, '_>) -> Answer<'a> {
    let answer = reference(lent);
    match confirmed(lent) {
        Some((octets, _)) if answer.number() == 21 && octets.len() > HEAD => refused(5),
        _ => answer,
    }
}

fn raises_by_a_status<'a>(lent: &mut Lent<'a, '_>) -> Answer<'a> {
    let answer = reference(lent);
    if confirmed(lent).is_some() && answer.packed == 0 {
        raise(lent, SEND);
    }
    answer
}

pub fn confirming() -> Vec<(&'static str, Box<Tunnel>)> {
    vec![
        ("status ignored", Box::new(ignores_the_status)),
        (
            "status before the counter",
            Box::new(status_before_the_counter),
        ),
        (
            "send counter 255 not going to 0",
            Box::new(send_stays_at_255),
        ),
        ("one behind accepted", Box::new(one_behind_is_known)),
        ("a status refused", Box::new(a_status_is_refused)),
        ("raised by a status, unsaid", Box::new(raises_by_a_status)),
        ("5 before 21", Box::new(five_before_twenty_one)),
    ]
}

fn twenty_before_nineteen<'a>(lent: &mut Lent<'a, '_>) -> Answer<'a> {
    let answer = reference(lent);
    match lent.asked.arriving() {
        Some(octets) if answer.number() == 19 => {
            let is_open =
                place(octets[CHANNEL_AT]).is_some_and(|place| lent.channels[place] == OPEN);
            refused(if is_open { 19 } else { 20 })
        }
        _ => answer,
    }
}

fn twenty_one_before_twenty<'a>(lent: &mut Lent<'a, '_>) -> Answer<'a> {
    match arriving(lent) {
        Some((_, place)) if tried(lent).number() == 20 => {
            let mut channels = lent.channels.to_vec();
            channels[place] = OPEN;
            let answer = tried(&Lent {
                asked: lent.asked,
                channels: &mut channels,
                room: lent.room,
            });
            refused(if answer.number() == 21 { 21 } else { 20 })
        }
        _ => reference(lent),
    }
}

fn twenty_one_behind_cemi<'a>(lent: &mut Lent<'a, '_>) -> Answer<'a> {
    let answer = reference(lent);
    match received(lent) {
        Some((octets, _)) if answer.number() == 21 => {
            let read = tried(&Lent {
                asked: Asked::ReadRequest(octets),
                channels: &mut [],
                room: &mut [],
            });
            refused(if read.number() == 0 {
                21
            } else {
                read.number()
            })
        }
        _ => answer,
    }
}

fn thirteen_last<'a>(lent: &mut Lent<'a, '_>) -> Answer<'a> {
    match (lent.asked, reference(lent)) {
        (Asked::Receive(_), answer) if answer.number() == 13 => {
            let answer = tried(&Lent {
                asked: lent.asked,
                channels: lent.channels,
                room: &mut [0; HEAD],
            });
            refused(if answer.number() == 0 {
                13
            } else {
                answer.number()
            })
        }
        (_, answer) => answer,
    }
}

fn thirteen_before_the_table<'a>(lent: &mut Lent<'a, '_>) -> Answer<'a> {
    match lent.asked {
        Asked::Receive(_) if lent.room.len() < HEAD => refused(13),
        _ => reference(lent),
    }
}

fn takes_a_longer_table<'a>(lent: &mut Lent<'a, '_>) -> Answer<'a> {
    let table = lent.channels.len().min(TABLE);
    reference(&mut Lent {
        asked: lent.asked,
        channels: &mut lent.channels[..table],
        room: lent.room,
    })
}

fn twelve_before_eleven<'a>(lent: &mut Lent<'a, '_>) -> Answer<'a> {
    let answer = reference(lent);
    match lent.asked.octets() {
        Some(octets)
            if answer.number() == 11 && octets[4..6] != (octets.len() as u16).to_be_bytes() =>
        {
            refused(12)
        }
        _ => answer,
    }
}

fn eleven_before_ten<'a>(lent: &mut Lent<'a, '_>) -> Answer<'a> {
    let answer = reference(lent);
    let service = match lent.asked {
        Asked::Receive(_) | Asked::ReadRequest(_) => [0x04, 0x20],
        _ => [0x04, 0x21],
    };
    match lent.asked.octets() {
        Some(octets) if answer.number() == 10 && octets[2..4] != service => refused(11),
        _ => answer,
    }
}

fn either_service<'a>(lent: &mut Lent<'a, '_>) -> Answer<'a> {
    match lent.asked {
        Asked::Receive([_, _, 0x04, 0x21, ..]) => with_octet(lent, 3, 0x20),
        Asked::Confirm([_, _, 0x04, 0x20, ..]) => with_octet(lent, 3, 0x21),
        _ => reference(lent),
    }
}

fn one_before_twelve<'a>(lent: &mut Lent<'a, '_>) -> Answer<'a> {
    let answer = reference(lent);
    match lent.asked.octets() {
        Some(octets) if answer.number() == 12 && octets.len() < HEAD => refused(1),
        _ => answer,
    }
}

fn nineteen_before_one<'a>(lent: &mut Lent<'a, '_>) -> Answer<'a> {
    let answer = reference(lent);
    match lent.asked.octets() {
        Some([_, _, _, _, _, _, first, rest @ ..])
            if answer.number() == 1 && rest.len() < 3 && *first != 0x04 =>
        {
            refused(19)
        }
        _ => answer,
    }
}

fn any_first_octet<'a>(lent: &mut Lent<'a, '_>) -> Answer<'a> {
    match lent.asked.octets() {
        Some(_) => with_octet(lent, FIRST_AT, 0x04),
        None => reference(lent),
    }
}

pub fn refusing() -> Vec<(&'static str, Box<Tunnel>)> {
    vec![
        ("20 before 19", Box::new(twenty_before_nineteen)),
        ("21 before 20", Box::new(twenty_one_before_twenty)),
        ("cEMI's before 21", Box::new(twenty_one_behind_cemi)),
        ("13 last", Box::new(thirteen_last)),
        (
            "13 before the table's 14",
            Box::new(thirteen_before_the_table),
        ),
        ("a table of 13 octets taken", Box::new(takes_a_longer_table)),
        ("12 before 11", Box::new(twelve_before_eleven)),
        ("11 before 10", Box::new(eleven_before_ten)),
        ("either service taken", Box::new(either_service)),
        ("1 before 12", Box::new(one_before_twelve)),
        ("19 before 1", Box::new(nineteen_before_one)),
        ("any first octet taken", Box::new(any_first_octet)),
    ]
}

fn reads_the_last<'a>(lent: &mut Lent<'a, '_>) -> Answer<'a> {
    match lent.asked {
        Asked::Receive(octets) | Asked::ReadRequest(octets)
            if tried(lent).number() == 0 && octets[LAST_AT] != 0x00 =>
        {
            refused(19)
        }
        _ => reference(lent),
    }
}

fn refuses_confirmations<'a>(lent: &mut Lent<'a, '_>) -> Answer<'a> {
    match lent.asked {
        Asked::Receive(octets) | Asked::ReadRequest(octets)
            if tried(lent).number() == 0 && octets[HEAD] == 0x2e =>
        {
            refused(7)
        }
        _ => reference(lent),
    }
}

fn information_begins_early<'a>(lent: &mut Lent<'a, '_>) -> Answer<'a> {
    let answer = reference(lent);
    match lent.asked {
        Asked::Receive(octets) | Asked::ReadRequest(octets) if answer.is_delivered() => Answer {
            information: &octets[HEAD + 1..][..answer.information.len()],
            ..answer
        },
        _ => answer,
    }
}

/// Parts that are a copy of the octets received: right, and elsewhere.
fn copies_the_payload<'a>(lent: &mut Lent<'a, '_>) -> Answer<'a> {
    let answer = reference(lent);
    match answer.is_delivered() && matches!(lent.asked, Asked::Receive(_)) {
        true => Answer {
            payload: answer.payload.to_vec().leak(),
            ..answer
        },
        false => answer,
    }
}

fn writes_another_total<'a>(lent: &mut Lent<'a, '_>) -> Answer<'a> {
    let answer = reference(lent);
    match lent.asked {
        Asked::Send(..) | Asked::WriteRequest(..) if answer.number() == 0 => {
            let total = (answer.packed >> 8) as u16 - 6;
            lent.room[4..6].copy_from_slice(&total.to_be_bytes());
        }
        _ => {}
    }
    answer
}

fn acknowledges_without_a_header<'a>(lent: &mut Lent<'a, '_>) -> Answer<'a> {
    let answer = reference(lent);
    match lent.asked {
        Asked::WriteAcknowledgement(_) if answer.number() == 0 => lent.room[5] = 4,
        _ => {}
    }
    answer
}

fn five_before_nineteen<'a>(lent: &mut Lent<'a, '_>) -> Answer<'a> {
    match (lent.asked, reference(lent)) {
        (Asked::ReadAcknowledgement(octets), answer)
            if answer.number() == 19 && octets.len() > HEAD =>
        {
            refused(5)
        }
        (_, answer) => answer,
    }
}

fn channel_for_counter<'a>(lent: &mut Lent<'a, '_>) -> Answer<'a> {
    match (lent.asked, reference(lent)) {
        (Asked::ReadAcknowledgement(_), answer) if answer.number() == 0 => {
            let [number, channel, counter, status, ..] = answer.packed.to_le_bytes();
            Answer::bare(u32::from_le_bytes([number, counter, channel, status]).into())
        }
        (_, answer) => answer,
    }
}

fn cuts_the_counter<'a>(lent: &mut Lent<'a, '_>) -> Answer<'a> {
    match lent.asked {
        Asked::WriteRequest([channel, counter], message) => reference(&mut Lent {
            asked: Asked::WriteRequest([channel, counter & 0xff], message),
            channels: lent.channels,
            room: lent.room,
        }),
        _ => reference(lent),
    }
}

fn thirteen_before_fourteen<'a>(lent: &mut Lent<'a, '_>) -> Answer<'a> {
    match lent.asked {
        Asked::WriteAcknowledgement(_) if lent.room.len() < HEAD => refused(13),
        _ => reference(lent),
    }
}

pub fn reading_and_writing() -> Vec<(&'static str, Box<Tunnel>)> {
    vec![
        ("octet 00h read", Box::new(reads_the_last)),
        ("code 2Eh refused", Box::new(refuses_confirmations)),
        (
            "information one octet early",
            Box::new(information_begins_early),
        ),
        ("payload copied", Box::new(copies_the_payload)),
        ("wrong total length written", Box::new(writes_another_total)),
        (
            "acknowledgement's total without header",
            Box::new(acknowledges_without_a_header),
        ),
        ("5 before 19", Box::new(five_before_nineteen)),
        ("channel for counter", Box::new(channel_for_counter)),
        ("counter cut to an octet", Box::new(cuts_the_counter)),
        ("13 before 14", Box::new(thirteen_before_fourteen)),
    ]
}
