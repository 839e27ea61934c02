//! The comparison for tunnelling: the proved library and the bindings over it beside the reference,
//! in series that carry the table of channels on.

#[path = "support/tunnel_counts.rs"]
mod tunnel_counts;
#[path = "support/tunnel_traffic.rs"]
mod tunnel_traffic;
#[path = "support/tunnels.rs"]
mod tunnels;
#[path = "support/wrong_tunnels.rs"]
mod wrong_tunnels;

use inputs::{seed, Generator};
use klumdray::cemi::{Code, Frame};
use klumdray::tunnelling::{self, Acknowledgement, Channel, Channels};
use klumdray::{raw, Meaning, Refusal};
use tunnel_traffic::Series;
use tunnels::{library, place, reference, Answer, Asked, Comparison, Lent, Message, Tunnel};
use tunnels::{CHANNEL, CHANNEL_AT, COUNTER_AT, HEAD, OPEN, TABLE};

const LONGEST_SERIES: usize = 20_000;

/// How much is compared.
#[derive(Clone, Copy)]
struct Extent {
    calls: u64,
    /// Whether tables with any counters and any open octets are lent.
    is_odd: bool,
}

const LIBRARY: Extent = Extent {
    calls: 1_000_000,
    is_odd: true,
};

/// The bindings have no such tables.
const BINDINGS: Extent = Extent {
    calls: 1_000_000,
    is_odd: false,
};

/// Series of calls, each on channels that are set anew; now and then one of them is opened or
/// closed within a series.
fn compare<'s>(
    proved: &'s mut Tunnel,
    reference: &'s mut Tunnel,
    seed: u64,
    extent: Extent,
) -> Result<Comparison<'s>, String> {
    let mut comparison = Comparison::new(proved, reference);
    let generator = &mut Generator::new(seed);
    while comparison.counts.calls() < extent.calls {
        let series = Series::new(generator, extent.is_odd);
        for (number, octets) in (1..).zip(series.channels(generator)) {
            comparison.set(number, octets);
        }
        for _ in 0..=generator.below(LONGEST_SERIES) {
            if let Some(number) = series.other(generator).filter(|_| generator.one_in(500)) {
                let is_open = generator.one_in(2);
                comparison.set(number, series.channel(generator, is_open));
            }
            let call = series.call(generator, &comparison.table());
            comparison.ask(call.asked(), call.table, call.room)?;
        }
    }
    Ok(comparison)
}

fn assert_agrees(name: &str, proved: &mut Tunnel, extent: Extent) {
    let seed = seed();
    println!("tunnelling, {name} and reference, KLUMDRAY_SEED={seed:#x}");
    match compare(proved, &mut reference, seed, extent) {
        Ok(comparison) => {
            println!("tunnelling, {name}: {comparison}");
            comparison.counts.assert_covers(extent.calls);
        }
        Err(difference) => panic!("KLUMDRAY_SEED={seed:#x}: {difference}"),
    }
}

#[test]
fn library_agrees_with_the_reference() {
    assert_agrees("library", &mut library, LIBRARY);
}

#[test]
fn bindings_agree_with_the_reference() {
    assert_agrees("bindings", &mut *bindings(), BINDINGS);
}

/// The bindings with a table of their own.
fn bindings() -> Box<Tunnel> {
    fn boxed(call: impl for<'a> FnMut(&mut Lent<'a, '_>) -> Answer<'a> + 'static) -> Box<Tunnel> {
        Box::new(call)
    }
    let mut channels = Channels::closed();
    boxed(move |lent| bindings_call(&mut channels, lent))
}

/// By the bindings, wherever their types have what is lent, and with their own table, whose
/// counters are put into the block.
fn bindings_call<'a>(channels: &mut Channels, lent: &mut Lent<'a, '_>) -> Answer<'a> {
    if lent.channels.len() != TABLE {
        return library(lent);
    }
    follow(channels, lent.channels);
    let answer = match lent.asked {
        Asked::Receive(octets) => receive(channels, octets, lent.room),
        Asked::Send(channel, message) => match (u8::try_from(channel), said(message)) {
            (Ok(channel), Some((code, mark, meaning))) => {
                let payload = &message.payload;
                size(channels.send(channel, code, mark, &meaning, payload, lent.room))
            }
            _ => library(lent),
        },
        Asked::Confirm(octets) => {
            let raised = channels.confirm(octets);
            number(raised.map(|raised| u64::from(raised) << 8))
        }
        _ => without_a_table(lent),
    };
    for number in 1..=4 {
        if let Some(Channel { receive, send }) = channels.channel(number) {
            let place = place(number).expect("a channel");
            lent.channels[place..][..CHANNEL].copy_from_slice(&[OPEN, receive, send]);
        }
    }
    answer
}

/// Opens and closes the channels that the caller of the block has opened, with counters 0, or
/// closed.
fn follow(channels: &mut Channels, block: &[u8]) {
    for number in 1..=4 {
        let octets = &block[place(number).expect("a channel")..][..CHANNEL];
        let set = match *octets {
            [OPEN, receive, send] => Some(Channel { receive, send }),
            _ => None,
        };
        if set != channels.channel(number) {
            let is_one = match set {
                Some(_) => channels.open(number),
                None => channels.close(number),
            };
            assert!(is_one && set == channels.channel(number), "{octets:?}");
        }
    }
}

fn receive<'a>(channels: &mut Channels, octets: &'a [u8], room: &mut [u8]) -> Answer<'a> {
    let front = room.as_ptr();
    match channels.receive(octets, room) {
        Err(refusal) => Answer::bare(refusal.number().into()),
        Ok(received) => {
            let acknowledgement = received.acknowledgement;
            assert_eq!(
                (acknowledgement.as_ptr(), HEAD),
                (front, acknowledgement.len())
            );
            received.delivered.map_or(Answer::bare(0), |request| {
                let asked = [request.channel, request.counter];
                assert_eq!(asked, [octets[CHANNEL_AT], octets[COUNTER_AT]]);
                frame(&request.frame)
            })
        }
    }
}

fn without_a_table<'a>(lent: &mut Lent<'a, '_>) -> Answer<'a> {
    match lent.asked {
        Asked::ReadRequest(octets) => match tunnelling::read_request(octets) {
            Ok(request) => frame(&request.frame),
            Err(refusal) => Answer::bare(refusal.number().into()),
        },
        Asked::ReadAcknowledgement(octets) => {
            let read = tunnelling::read_acknowledgement(octets);
            number(read.map(|read| {
                u32::from_le_bytes([0, read.channel, read.counter, read.status]).into()
            }))
        }
        Asked::WriteAcknowledgement(numbers) => match numbers.map(u8::try_from) {
            [Ok(channel), Ok(counter), Ok(status)] => {
                let acknowledgement = Acknowledgement {
                    channel,
                    counter,
                    status,
                };
                size(tunnelling::write_acknowledgement(
                    &acknowledgement,
                    lent.room,
                ))
            }
            _ => library(lent),
        },
        Asked::WriteRequest(numbers, message) => match (numbers.map(u8::try_from), said(message)) {
            ([Ok(channel), Ok(counter)], Some((code, mark, meaning))) => {
                let (payload, room) = (&message.payload, &mut *lent.room);
                let write = tunnelling::write_request;
                size(write(channel, counter, code, mark, &meaning, payload, room))
            }
            _ => library(lent),
        },
        _ => unreachable!("a call on a table"),
    }
}

/// Code, error mark and meaning, where the bindings' types have them.
fn said(message: &Message) -> Option<(Code, bool, Meaning)> {
    let flag = |number| (number <= 1).then_some(number == 1);
    let given = &message.given;
    let meaning = Meaning {
        extended: flag(given.extended)?,
        first_sending: flag(given.first_sending)?,
        priority: given.priority,
        source: given.source,
        group: flag(given.group)?,
        destination: given.destination,
        count: given.count,
    };
    let code = Code::from_octet(message.code)?;
    Some((code, flag(message.error_mark)?, meaning))
}

fn number(answer: Result<u64, Refusal>) -> Answer<'static> {
    Answer::bare(answer.unwrap_or_else(|refusal| refusal.number().into()))
}

fn size(written: Result<usize, Refusal>) -> Answer<'static> {
    number(written.map(|size| (size as u64) << 8))
}

/// A reader's answer by the bits that include/klumdray.h names.
fn frame<'a>(frame: &Frame<'a>) -> Answer<'a> {
    let code = match frame.code {
        Code::Request => 1,
        Code::Confirmation => 2,
        Code::Indication => 3,
    };
    let meaning = &frame.meaning;
    let packed = u64::from(meaning.extended) << 8
        | u64::from(meaning.first_sending) << 9
        | u64::from(meaning.priority) << 10
        | u64::from(meaning.group) << 12
        | u64::from(meaning.count) << 13
        | u64::from(meaning.source) << 16
        | u64::from(meaning.destination) << 32
        | (frame.payload().len() as u64) << 48
        | code << 56
        | u64::from(frame.error_mark) << 58;
    Answer {
        packed,
        payload: frame.payload(),
        information: frame.information(),
    }
}

/// Every counter of a datagram with every one that a channel awaits, on each of the four.
fn all_counters() -> impl Iterator<Item = (u8, u8, u8)> {
    let channels = (1..=4).flat_map(|channel| (0..=255).map(move |awaited| (channel, awaited)));
    channels.flat_map(|(channel, awaited)| (0..=255).map(move |c| (channel, awaited, c)))
}

/// Asserts what a call does with each of them, on a table whose channels all await the same: how
/// often it raised the counter in `field`, and how often it was one behind and only accepted.
fn assert_counters(
    datagram: &[u8],
    field: usize,
    call: impl Fn(&mut [u8; TABLE], &[u8]) -> u64,
) -> [u64; 2] {
    let (mut octets, mut times) = (datagram.to_vec(), [0; 2]);
    for (channel, awaited, counter) in all_counters() {
        octets[CHANNEL_AT..][..2].copy_from_slice(&[channel, counter]);
        let fields = [OPEN, awaited, awaited];
        let mut table: [u8; TABLE] = std::array::from_fn(|place| fields[place % CHANNEL]);
        let mut expected = table;
        let answer = call(&mut table, &octets);
        let is_raised = counter == awaited;
        let is_again = field == 1 && counter == awaited.wrapping_sub(1);
        if is_raised {
            expected[place(channel).expect("a channel") + field] = awaited.wrapping_add(1);
        }
        let number = if is_raised || is_again { 0 } else { 21 };
        let what = format!("channel {channel}, {counter} for {awaited}");
        assert_eq!((answer as u8, answer > 255), (number, is_raised), "{what}");
        assert_eq!(table, expected, "{what}");
        times = [
            times[0] + u64::from(is_raised),
            times[1] + u64::from(is_again),
        ];
    }
    times
}

#[test]
fn all_counters_agree() {
    let request = [
        0x06, 0x10, 0x04, 0x20, 0x00, 0x14, 0x04, 0x01, 0x00, 0x00, 0x29, 0x00, 0xbc, 0xe0, 0x00,
        0x00, 0x12, 0x34, 0x00, 0x00,
    ];
    let [delivered, again] = assert_counters(&request, 1, |table, octets| {
        raw::tunnelling_receive(table, octets, &mut [0; HEAD])
    });
    println!("262,144 requests: {delivered} delivered, {again} acknowledged again");
    assert_eq!((delivered, again), (1024, 1024));
    let acknowledgement = [0x06, 0x10, 0x04, 0x21, 0x00, 0x0a, 0x04, 0x01, 0x00, 0x00];
    let [raised, _] = assert_counters(&acknowledgement, 2, |table, octets| {
        raw::tunnelling_confirm(table, octets).into()
    });
    println!("262,144 acknowledgements: {raised} raised a send counter");
    assert_eq!(raised, 1024);
}

fn assert_noticed(references: Vec<(&str, Box<Tunnel>)>) {
    for (name, mut reference) in references {
        match compare(&mut library, &mut *reference, seed(), LIBRARY) {
            Ok(_) => panic!("not noticed: {name}"),
            Err(difference) => println!("{name}: {difference:.160}"),
        }
    }
}

#[test]
fn wrong_receiving_is_noticed() {
    assert_noticed(wrong_tunnels::receiving());
}

#[test]
fn wrong_sending_is_noticed() {
    assert_noticed(wrong_tunnels::sending());
}

#[test]
fn wrong_confirming_is_noticed() {
    assert_noticed(wrong_tunnels::confirming());
}

#[test]
fn wrong_refusing_is_noticed() {
    assert_noticed(wrong_tunnels::refusing());
}

#[test]
fn wrong_reading_and_writing_is_noticed() {
    assert_noticed(wrong_tunnels::reading_and_writing());
}
