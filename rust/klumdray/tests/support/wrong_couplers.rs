//! References with one rule of the coupler turned round.

use crate::couplers::{
    forwarded, is_own, is_repetition, part, put_part, reference_step, Lent, Setting, Stepper,
    CODES, LINE, MEDIUM, MEMORY, SETTINGS,
};
use crate::repetitions::is_repetition_of;
use inputs::frames::given;
use reference::coupler::{lowered, Side, LARGEST_FRAME, ROOM_SIZE, TABLE_SIZE};
use reference::{Format, Meaning};

const ACKNOWLEDGEMENT: u64 = 0xcc << 8;
const OWN: u64 = 1 << 16;
const FORWARDED: u64 = 0xffff_ffff << 32;
/// All of an answer but the octets forwarded.
const DECISION: u64 = !FORWARDED;

/// Forwards the frame heard, with its meaning changed, whatever the answer was.
fn forward(lent: &mut Lent<'_>, answer: u64, change: impl Fn(Meaning) -> Meaning) -> u64 {
    let (meaning, payload) = lent.heard().expect("an accepted frame");
    let onward = change(Meaning {
        first_sending: true,
        count: lowered(meaning.count).unwrap_or(0),
        ..meaning
    });
    let size = match (lent.setting.side, lent.medium()) {
        (1, Some(1)) => reference::routing::write(0x29, 0, &given(&onward), payload, lent.room),
        _ => reference::tp1::write(&given(&onward), payload, lent.room),
    };
    let acknowledgement = if lent.is_from_ip() {
        0
    } else {
        ACKNOWLEDGEMENT
    };
    let size = size.expect("a room of 272 octets") as u64;
    answer & DECISION | acknowledgement | size << 32
}

fn unchanged(meaning: Meaning) -> Meaning {
    meaning
}

/// The reference with another setting.
fn with_setting(lent: &mut Lent<'_>, setting: Setting<'_>) -> u64 {
    reference_step(&mut Lent {
        setting,
        memory: lent.memory,
        octets: lent.octets,
        room: lent.room,
    })
}

fn with_settings(lent: &mut Lent<'_>, settings: &[u8]) -> u64 {
    let setting = lent.setting;
    with_setting(
        lent,
        Setting {
            settings,
            ..setting
        },
    )
}

fn with_table(lent: &mut Lent<'_>, table: &[u8]) -> u64 {
    let setting = lent.setting;
    with_setting(lent, Setting { table, ..setting })
}

/// The reference with another code for one class in the receiving side's row.
fn with_code(lent: &mut Lent<'_>, class: usize, code: u8) -> u64 {
    let mut settings = lent.setting.settings.to_vec();
    settings[CODES][usize::from(lent.setting.side) * 4 + class] = code;
    with_settings(lent, &settings)
}

/// The meaning of a frame in a step that draws no refusal.
pub fn accepted(lent: &mut Lent<'_>) -> Option<Meaning> {
    let answer = reference_step(&mut Lent {
        setting: lent.setting,
        memory: &mut lent.memory.to_vec(),
        octets: lent.octets,
        room: &mut lent.room.to_vec(),
    });
    let (meaning, _) = lent.heard().filter(|_| answer as u8 == 0)?;
    Some(meaning)
}

/// The code of one class in the receiving side's row of an accepted step.
fn code(lent: &Lent<'_>, class: usize) -> u8 {
    lent.setting.settings[CODES][usize::from(lent.setting.side) * 4 + class]
}

/// Whether address and codes alone let a frame of an accepted step pass.
fn may_pass(lent: &Lent<'_>, meaning: &Meaning) -> bool {
    let side = [Side::Main, Side::Sub][usize::from(lent.setting.side)];
    let (coupler, _) = lent.coupler().expect("ten octets of settings");
    coupler.may_pass(side, meaning.group, meaning.destination)
}

/// Whether a frame of an accepted step is a repetition.
fn repeats(lent: &Lent<'_>) -> bool {
    let remembered = part(lent.memory, lent.setting.side.into());
    let frame = remembered.frame().unwrap_or(&[]);
    !lent.is_from_ip() && is_repetition_of(frame, lent.octets)
}

/// The meaning of a frame in a step that draws no refusal, if it is no repetition.
fn accepted_first(lent: &mut Lent<'_>) -> Option<Meaning> {
    accepted(lent).filter(|_| !repeats(lent))
}

fn copies_check_octet(lent: &mut Lent<'_>) -> u64 {
    let answer = reference_step(lent);
    if forwarded(answer) > 0 && lent.medium() == Some(0) {
        lent.room[forwarded(answer) - 1] = lent.octets[lent.octets.len() - 1];
    }
    answer
}

fn lowers_seven(lent: &mut Lent<'_>) -> u64 {
    let count = |onward: Meaning| Meaning {
        count: onward.count.min(6),
        ..onward
    };
    match reference_step(lent) {
        answer if forwarded(answer) > 0 => forward(lent, answer, count),
        answer => answer,
    }
}

pub fn forwards_nothing(lent: &mut Lent<'_>) -> u64 {
    let before = lent.room.to_vec();
    let answer = reference_step(lent);
    lent.room.copy_from_slice(&before);
    answer & DECISION
}

fn copies_octets(lent: &mut Lent<'_>) -> u64 {
    let answer = reference_step(lent);
    match lent.room.get_mut(..lent.octets.len()) {
        Some(front) if forwarded(answer) > 0 => {
            front.copy_from_slice(lent.octets);
            answer & DECISION | (lent.octets.len() as u64) << 32
        }
        _ => answer,
    }
}

/// Gives to every frame the answer that its first one got.
fn decides_once() -> Box<Stepper> {
    let mut first = None;
    Box::new(move |lent| match reference_step(lent) {
        answer if answer as u8 == 0 => *first.get_or_insert(answer),
        answer => answer,
    })
}

fn forwards_count_0(lent: &mut Lent<'_>) -> u64 {
    match (accepted_first(lent), reference_step(lent)) {
        (Some(heard), answer) if heard.count == 0 && may_pass(lent, &heard) => {
            forward(lent, answer, unchanged)
        }
        (_, answer) => answer,
    }
}

fn keeps_repeat_flag(lent: &mut Lent<'_>) -> u64 {
    match (accepted(lent), reference_step(lent)) {
        (Some(heard), answer) if forwarded(answer) > 0 => forward(lent, answer, |onward| Meaning {
            first_sending: heard.first_sending,
            ..onward
        }),
        (_, answer) => answer,
    }
}

fn shortens_the_format(lent: &mut Lent<'_>) -> u64 {
    let before = lent.room.to_vec();
    let answer = reference_step(lent);
    match lent.heard() {
        Some((_, payload)) if forwarded(answer) > 0 && payload.len() <= 16 => {
            lent.room.copy_from_slice(&before);
            forward(lent, answer, |onward| Meaning {
                format: Format::Standard,
                ..onward
            })
        }
        _ => answer,
    }
}

fn clears_room_behind(lent: &mut Lent<'_>) -> u64 {
    let answer = reference_step(lent);
    if forwarded(answer) > 0 {
        lent.room[forwarded(answer)..].fill(0);
    }
    answer
}

fn sends_own_on(lent: &mut Lent<'_>) -> u64 {
    match (accepted_first(lent), reference_step(lent)) {
        (Some(heard), answer)
            if is_own(answer) && heard.count > 0 && lent.setting.side == 0 && code(lent, 0) > 0 =>
        {
            forward(lent, answer, unchanged)
        }
        (_, answer) => answer,
    }
}

fn reads_broadcast(lent: &mut Lent<'_>) -> u64 {
    match accepted(lent) {
        Some(heard) if heard.group && heard.destination == 0 && code(lent, 2) == 1 => {
            let listed = lent.setting.table[0] & 1;
            with_code(lent, 1, 2 * listed)
        }
        _ => reference_step(lent),
    }
}

fn area_0_as_an_area(lent: &mut Lent<'_>) -> u64 {
    match accepted(lent) {
        Some(heard) if !heard.group && lent.setting.settings[LINE] < 0x10 && code(lent, 0) == 1 => {
            let below = heard.destination < 0x1000;
            let passes = below == (lent.setting.side == 0);
            with_code(lent, 0, 2 * u8::from(passes))
        }
        _ => reference_step(lent),
    }
}

fn rows_changed_over(lent: &mut Lent<'_>) -> u64 {
    let mut settings = lent.setting.settings.to_vec();
    if let Some(codes) = settings.get_mut(CODES) {
        codes.rotate_left(4);
    }
    with_settings(lent, &settings)
}

fn seven_passes_the_table(lent: &mut Lent<'_>) -> u64 {
    match accepted(lent) {
        Some(heard) if heard.count == 7 => {
            let table = vec![0xff; lent.setting.table.len()];
            with_table(lent, &table)
        }
        _ => reference_step(lent),
    }
}

fn bits_from_the_other_end(lent: &mut Lent<'_>) -> u64 {
    let table: Vec<u8> = lent
        .setting
        .table
        .iter()
        .map(|octet| octet.reverse_bits())
        .collect();
    with_table(lent, &table)
}

fn open_stops_on_its_side(lent: &mut Lent<'_>) -> u64 {
    match accepted(lent) {
        Some(heard) if !heard.group && code(lent, 0) == 2 => with_code(lent, 0, 1),
        _ => reference_step(lent),
    }
}

fn acknowledges_the_first(lent: &mut Lent<'_>) -> u64 {
    match reference_step(lent) {
        answer if is_repetition(answer) => answer & !ACKNOWLEDGEMENT,
        answer => answer,
    }
}

fn acknowledges_from_ip(lent: &mut Lent<'_>) -> u64 {
    match reference_step(lent) {
        answer if lent.is_from_ip() && (is_own(answer) || forwarded(answer) > 0) => {
            answer | ACKNOWLEDGEMENT
        }
        answer => answer,
    }
}

fn acknowledges_count_0(lent: &mut Lent<'_>) -> u64 {
    match (accepted(lent), reference_step(lent)) {
        (Some(heard), 0) if heard.count == 0 && !lent.is_from_ip() && may_pass(lent, &heard) => {
            ACKNOWLEDGEMENT
        }
        (_, answer) => answer,
    }
}

fn count_0_silences_own(lent: &mut Lent<'_>) -> u64 {
    match (accepted(lent), reference_step(lent)) {
        (Some(heard), answer) if is_own(answer) && heard.count == 0 => answer & !ACKNOWLEDGEMENT,
        (_, answer) => answer,
    }
}

fn own_reported_once(lent: &mut Lent<'_>) -> u64 {
    let repetition = accepted(lent).is_some() && repeats(lent);
    match reference_step(lent) {
        answer if repetition && is_own(answer) => ACKNOWLEDGEMENT,
        answer => answer,
    }
}

fn repetition_not_remembered(lent: &mut Lent<'_>) -> u64 {
    let before = lent.memory.to_vec();
    let answer = reference_step(lent);
    if is_repetition(answer) {
        lent.memory.copy_from_slice(&before);
    }
    answer
}

fn repetition_forwarded(lent: &mut Lent<'_>) -> u64 {
    match reference_step(lent) {
        answer if is_repetition(answer) => forward(lent, answer, unchanged),
        answer => answer,
    }
}

fn remembers_forwarded_only(lent: &mut Lent<'_>) -> u64 {
    let before = lent.memory.to_vec();
    let answer = reference_step(lent);
    if forwarded(answer) == 0 {
        lent.memory.copy_from_slice(&before);
    }
    answer
}

fn remembers_refused(lent: &mut Lent<'_>) -> u64 {
    let answer = reference_step(lent);
    if answer == 6 {
        let side = lent.setting.side.into();
        let mut remembered = part(lent.memory, side);
        remembered.size = lent.octets.len();
        remembered.octets[..lent.octets.len()].copy_from_slice(lent.octets);
        put_part(lent.memory, side, &remembered);
    }
    answer
}

fn forgets_on_refusal(lent: &mut Lent<'_>) -> u64 {
    let answer = reference_step(lent);
    if answer == 13 {
        lent.memory.fill(0);
    }
    answer
}

fn forgets_from_ip(lent: &mut Lent<'_>) -> u64 {
    let answer = reference_step(lent);
    if answer as u8 == 0 && lent.is_from_ip() {
        lent.memory[..2].fill(0);
    }
    answer
}

fn clears_memory_behind(lent: &mut Lent<'_>) -> u64 {
    let answer = reference_step(lent);
    if answer as u8 == 0 && !lent.is_from_ip() {
        let side = lent.setting.side.into();
        let mut remembered = part(lent.memory, side);
        remembered.octets[lent.octets.len()..].fill(0);
        put_part(lent.memory, side, &remembered);
    }
    answer
}

fn takes_any_size(lent: &mut Lent<'_>) -> u64 {
    if accepted(lent).is_some() && !lent.is_from_ip() {
        let side = lent.setting.side.into();
        let mut remembered = part(lent.memory, side);
        remembered.size = remembered.size.min(LARGEST_FRAME);
        put_part(lent.memory, side, &remembered);
    }
    reference_step(lent)
}

/// Whether the filter table draws 18, were it asked first.
fn is_wrong_table(setting: &Setting<'_>) -> bool {
    let codes = &setting.settings[CODES];
    let asked = codes.chunks(4).any(|row| row[2..].contains(&1));
    match setting.table.len() {
        TABLE_SIZE => false,
        length => length > 0 || asked,
    }
}

fn table_before_setting(lent: &mut Lent<'_>) -> u64 {
    match reference_step(lent) {
        15 if is_wrong_table(&lent.setting) => 18,
        answer => answer,
    }
}

fn range_before_table(lent: &mut Lent<'_>) -> u64 {
    match reference_step(lent) {
        18 if lent.setting.side > 1 || lent.medium() > Some(1) => 14,
        answer => answer,
    }
}

fn room_before_range(lent: &mut Lent<'_>) -> u64 {
    let blocks = lent.setting.settings.len() == SETTINGS && lent.memory.len() == MEMORY;
    match reference_step(lent) {
        14 if blocks && lent.room.len() < ROOM_SIZE => 13,
        answer => answer,
    }
}

fn reader_before_room(lent: &mut Lent<'_>) -> u64 {
    match reference_step(lent) {
        13 if lent.heard().is_none() => reference_step(&mut Lent {
            setting: lent.setting,
            memory: lent.memory,
            octets: lent.octets,
            room: &mut [0; ROOM_SIZE],
        }),
        answer => answer,
    }
}

fn setting_before_blocks(lent: &mut Lent<'_>) -> u64 {
    match reference_step(lent) {
        14 if lent.setting.settings.get(LINE) == Some(&0) => 15,
        answer => answer,
    }
}

fn room_as_needed(lent: &mut Lent<'_>) -> u64 {
    let mut larger = lent.room.to_vec();
    larger.push(0);
    match reference_step(lent) {
        13 if larger.len() == ROOM_SIZE => {
            let answer = reference_step(&mut Lent {
                setting: lent.setting,
                memory: lent.memory,
                octets: lent.octets,
                room: &mut larger,
            });
            lent.room.copy_from_slice(&larger[..ROOM_SIZE - 1]);
            answer
        }
        answer => answer,
    }
}

fn any_medium_from_sub(lent: &mut Lent<'_>) -> u64 {
    let mut settings = lent.setting.settings.to_vec();
    match settings.get_mut(MEDIUM) {
        Some(medium @ 2..) if lent.setting.side == 1 => *medium = 0,
        _ => {}
    }
    with_settings(lent, &settings)
}

/// The reference with as many settings as it needs, the missing ones being 0.
fn with_ten_settings(lent: &mut Lent<'_>) -> u64 {
    let mut settings = lent.setting.settings.to_vec();
    settings.resize(SETTINGS, 0);
    with_settings(lent, &settings)
}

fn takes_no_settings(lent: &mut Lent<'_>) -> u64 {
    match lent.setting.settings {
        [] => with_ten_settings(lent),
        _ => reference_step(lent),
    }
}

fn takes_nine_settings(lent: &mut Lent<'_>) -> u64 {
    match lent.setting.settings.len() {
        9 => with_ten_settings(lent),
        _ => reference_step(lent),
    }
}

fn takes_eleven_settings(lent: &mut Lent<'_>) -> u64 {
    match lent.setting.settings.len() {
        11 => with_ten_settings(lent),
        _ => reference_step(lent),
    }
}

fn asks_one_row(lent: &mut Lent<'_>) -> u64 {
    match reference_step(lent) {
        18 if lent.setting.table.is_empty() && lent.setting.side < 2 => {
            if code(lent, 2) == 1 || code(lent, 3) == 1 {
                18
            } else {
                with_table(lent, &[0; TABLE_SIZE])
            }
        }
        answer => answer,
    }
}

fn takes_any_idle_table(lent: &mut Lent<'_>) -> u64 {
    match reference_step(lent) {
        18 => with_table(lent, &[]),
        answer => answer,
    }
}

fn takes_broadcast_code_1(lent: &mut Lent<'_>) -> u64 {
    let mut settings = lent.setting.settings.to_vec();
    for place in [2, 6] {
        match settings.get_mut(place) {
            Some(code) if *code == 1 => *code = 0,
            _ => {}
        }
    }
    with_settings(lent, &settings)
}

/// What the reference says of a frame refused by 6 where the check octet is right.
fn mended(lent: &Lent<'_>) -> u64 {
    let mut octets = lent.octets.to_vec();
    let (check, before) = octets.split_last_mut().expect("a check octet");
    *check = reference::check_octet(before);
    reference_step(&mut Lent {
        setting: lent.setting,
        memory: &mut lent.memory.to_vec(),
        octets: &octets,
        room: &mut lent.room.to_vec(),
    })
}

fn acknowledges_refused(lent: &mut Lent<'_>) -> u64 {
    match reference_step(lent) {
        6 => 6 | mended(lent) & ACKNOWLEDGEMENT,
        answer => answer,
    }
}

fn own_though_refused(lent: &mut Lent<'_>) -> u64 {
    match reference_step(lent) {
        6 => 6 | mended(lent) & OWN,
        answer => answer,
    }
}

fn claims_refused(lent: &mut Lent<'_>) -> u64 {
    match reference_step(lent) {
        6 => 6 | mended(lent) & FORWARDED,
        answer => answer,
    }
}

fn claims_what_needs_room(lent: &mut Lent<'_>) -> u64 {
    match reference_step(lent) {
        13 => {
            let answer = reference_step(&mut Lent {
                setting: lent.setting,
                memory: &mut lent.memory.to_vec(),
                octets: lent.octets,
                room: &mut [0; ROOM_SIZE],
            });
            13 | answer & FORWARDED
        }
        answer => answer,
    }
}

pub fn forwarding() -> Vec<(&'static str, Box<Stepper>)> {
    vec![
        ("check octet copied", Box::new(copies_check_octet)),
        ("7 lowered to 6", Box::new(lowers_seven)),
        ("forwards nothing", Box::new(forwards_nothing)),
        ("copies octets unchanged", Box::new(copies_octets)),
        ("decides on its first frame", decides_once()),
        ("count 0 forwarded", Box::new(forwards_count_0)),
        ("repeat flag kept", Box::new(keeps_repeat_flag)),
        (
            "short extended made standard",
            Box::new(shortens_the_format),
        ),
        ("clears the room behind", Box::new(clears_room_behind)),
    ]
}

pub fn passing() -> Vec<(&'static str, Box<Stepper>)> {
    vec![
        ("4.7.0 sent on into line 4.7", Box::new(sends_own_on)),
        ("group 0000h read from the table", Box::new(reads_broadcast)),
        ("area 0 lines as an area's", Box::new(area_0_as_an_area)),
        ("rows changed over", Box::new(rows_changed_over)),
        ("7 passes the table", Box::new(seven_passes_the_table)),
        ("bits from the other end", Box::new(bits_from_the_other_end)),
        ("2 stops on its own side", Box::new(open_stops_on_its_side)),
    ]
}

pub fn acknowledging() -> Vec<(&'static str, Box<Stepper>)> {
    vec![
        (
            "first of a repeated frame only",
            Box::new(acknowledges_the_first),
        ),
        ("acknowledges from IP", Box::new(acknowledges_from_ip)),
        ("acknowledges count 0", Box::new(acknowledges_count_0)),
        ("own at count 0 without", Box::new(count_0_silences_own)),
        ("own repetition not reported", Box::new(own_reported_once)),
    ]
}

pub fn remembering() -> Vec<(&'static str, Box<Stepper>)> {
    vec![
        (
            "repetition not remembered",
            Box::new(repetition_not_remembered),
        ),
        ("repetition forwarded", Box::new(repetition_forwarded)),
        (
            "only forwarded remembered",
            Box::new(remembers_forwarded_only),
        ),
        ("memory written on a refusal", Box::new(remembers_refused)),
        ("memory cleared on a refusal", Box::new(forgets_on_refusal)),
        ("main side forgotten from IP", Box::new(forgets_from_ip)),
        ("clears the memory behind", Box::new(clears_memory_behind)),
        ("size above 263 taken", Box::new(takes_any_size)),
    ]
}

pub fn refusing() -> Vec<(&'static str, Box<Stepper>)> {
    vec![
        ("18 before 15", Box::new(table_before_setting)),
        ("14 before 18", Box::new(range_before_table)),
        ("13 before 14", Box::new(room_before_range)),
        ("reader's before 13", Box::new(reader_before_room)),
        ("15 before the blocks' 14", Box::new(setting_before_blocks)),
        ("missing settings are 0", Box::new(takes_no_settings)),
        ("no medium is TP1", Box::new(takes_nine_settings)),
        ("an eleventh setting left", Box::new(takes_eleven_settings)),
        ("13 only where needed", Box::new(room_as_needed)),
        ("medium not tested from sub", Box::new(any_medium_from_sub)),
        ("table asked by one row", Box::new(asks_one_row)),
        ("idle table of any size", Box::new(takes_any_idle_table)),
        ("broadcast code 1 taken", Box::new(takes_broadcast_code_1)),
    ]
}

/// These say the right number of a refused step, and more than that.
pub fn refused() -> Vec<(&'static str, Box<Stepper>)> {
    vec![
        (
            "acknowledges a refused frame",
            Box::new(acknowledges_refused),
        ),
        ("own though refused", Box::new(own_though_refused)),
        ("claims octets of a refused frame", Box::new(claims_refused)),
        (
            "claims octets without room",
            Box::new(claims_what_needs_room),
        ),
    ]
}
