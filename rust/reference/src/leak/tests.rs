//! Each sentence of "R-4. Litres that add up".

use super::*;

/// The ends of what the writer takes.
const LEAST: i64 = -67_108_864;
const MOST: i64 = 67_043_328;

/// All codes but 7FFFh.
fn valid_codes() -> impl Iterator<Item = u16> {
    (0..=0xffff).filter(|&code| code != 0x7fff)
}

/// M and E of a code, by another way than the reader's: the sign bit is carried into all higher bits.
fn parts(code: u16) -> (i64, u32) {
    let twelve = code >> 15 << 11 | code & 0x07ff;
    (
        i64::from(((twelve << 4) as i16) >> 4),
        u32::from(code >> 11 & 15),
    )
}

#[track_caller]
fn written(hundredths: i64) -> u16 {
    write(hundredths).unwrap()
}

// The reader.

#[test]
fn examples_of_the_request() {
    assert_eq!(value(0x0c1a), Ok(2_100));
    assert_eq!(value(0x87ff), Ok(-1));
    assert_eq!(value(0xf800), Ok(-67_108_864));
}

#[test]
fn largest_value_and_the_code_behind_it() {
    assert_eq!(value(0x7ffe), Ok(67_043_328));
    assert_eq!(value(0x7fff), Err(23));
}

#[test]
fn every_code_but_7fffh_is_m_times_2_to_the_e() {
    for code in valid_codes() {
        let (number, exponent) = parts(code);
        let expected = (0..exponent).fold(number, |value, _| value + value);
        assert_eq!(value(code).map(i64::from), Ok(expected), "{code:04x}");
    }
}

/// No other code's value is near 67,108,864, which 7FFFh without its refusal would come next to.
#[test]
fn values_lie_in_the_range_of_the_writer() {
    let values = || valid_codes().map(|code| i64::from(value(code).unwrap()));
    assert_eq!(values().min(), Some(LEAST));
    assert_eq!(values().max(), Some(MOST));
}

#[test]
fn zero_has_a_code_for_each_e() {
    let zeros: Vec<u16> = valid_codes().filter(|&code| value(code) == Ok(0)).collect();
    assert_eq!(
        zeros,
        Vec::from_iter((0..16).map(|exponent| exponent << 11))
    );
}

#[test]
fn octets_are_read_high_octet_first() {
    for code in 0..=0xffff {
        assert_eq!(read(&u16::to_be_bytes(code)), value(code), "{code:04x}");
    }
    assert_eq!(read(&[0x0c, 0x1a]), Ok(2_100));
    assert_eq!(read(&[0x7f, 0xff]), Err(23));
}

/// The number of octets is tested before what they say.
#[test]
fn another_number_of_octets_is_1_or_5() {
    for octet in [0x00, 0x7f, 0xff] {
        assert_eq!(read(&[]), Err(1));
        assert_eq!(read(&[octet]), Err(1));
        for length in 3..300 {
            assert_eq!(read(&vec![octet; length]), Err(5), "{length}");
        }
    }
    assert_eq!(read(&[0x7f, 0xff, 0xff]), Err(5));
    assert_eq!(read(&[0x7f]), Err(1));
}

// The writer.

#[test]
fn examples_of_the_request_are_written() {
    assert_eq!(write(2_100), Ok(0x0c1a));
    assert_eq!(write(-1), Ok(0x87ff));
    assert_eq!(write(-67_108_864), Ok(0xf800));
}

#[test]
fn both_ends_of_the_range_and_one_beyond() {
    assert_eq!(write(LEAST), Ok(0xf800));
    assert_eq!(write(MOST), Ok(0x7ffe));
    for outside in [LEAST - 1, MOST + 1, i64::MIN, i64::MAX, 1 << 26, 1 << 32] {
        assert_eq!(write(outside), Err(14), "{outside}");
    }
}

#[test]
fn small_numbers_are_written_exactly_with_e_0() {
    for number in 0..=2_047 {
        assert_eq!(written(number), number as u16);
    }
    for number in -2_048..=-1 {
        assert_eq!(written(number), 0x8000 | (number + 2_048) as u16);
    }
}

/// "the smallest E for which the nearest M, ties to even M, fits": the nearest of 4,095 at E 1 is
/// 2,048 of the tie 2,047 and 2,048, and does not fit.
#[test]
fn where_the_smallest_e_ends() {
    assert_eq!(written(2_048), 0x0c00);
    assert_eq!(written(4_092), 0x0ffe);
    assert_eq!(written(4_093), 0x0ffe);
    assert_eq!(written(4_094), 0x0fff);
    assert_eq!(written(4_095), 0x1400);
    assert_eq!(written(4_096), 0x1400);
    assert_eq!(written(-2_049), 0x8c00);
    assert_eq!(written(-4_095), 0x8800);
    assert_eq!(written(-4_096), 0x8800);
    assert_eq!(written(-4_097), 0x8800);
    assert_eq!(written(-4_098), 0x9400);
    assert_eq!(written(-4_099), 0x93ff);
}

/// Halfway between two neighbours at each E, the even one of them, for both signs; M from 1,024 on,
/// and from -1,025 down, as a smaller E cannot hold these.
#[test]
fn ties_go_to_even_m() {
    for exponent in 1..=15 {
        let half = 1_i64 << (exponent - 1);
        for number in (1_024..=2_045_i64).chain(-2_048..=-1_025) {
            let even = number + number.rem_euclid(2);
            let code = written(number * 2 * half + half);
            assert_eq!(parts(code), (even, exponent), "{number} and a half");
        }
    }
}

/// Beyond 2,047 and a half E grows, but at -2,048 and a half it does not.
#[test]
fn ties_at_both_ends_of_m() {
    for exponent in 1..=14 {
        let half = 1_i64 << (exponent - 1);
        let (upper, lower) = (4_095 * half, -4_097 * half);
        assert_eq!(parts(written(upper - 1)), (2_047, exponent));
        assert_eq!(parts(written(upper)), (1_024, exponent + 1));
        assert_eq!(parts(written(lower)), (-2_048, exponent));
        assert_eq!(parts(written(lower - 1)), (-1_024, exponent + 1));
    }
}

#[test]
fn every_code_read_and_written_again_keeps_its_value() {
    for code in valid_codes() {
        let hundredths = i64::from(value(code).unwrap());
        let again = written(hundredths);
        assert_eq!(value(again).map(i64::from), Ok(hundredths), "{code:04x}");
        assert!(parts(again).1 <= parts(code).1, "{code:04x}");
    }
}

/// "the result is off by at most half of 2 to the E", and no smaller E has a nearest M that fits.
#[test]
fn results_are_nearest_and_their_e_is_the_smallest() {
    for hundredths in (LEAST..=MOST).step_by(97) {
        let (number, exponent) = parts(written(hundredths));
        let unit = 1_i64 << exponent;
        assert!(
            2 * (number * unit - hundredths).abs() <= unit,
            "{hundredths}"
        );
        if exponent > 0 {
            // At half of that unit, what fits begins half below -2,048, which is even, and ends
            // before half above 2,047, which is not.
            let fits = (-4_097 * unit..4_095 * unit).contains(&(4 * hundredths));
            assert!(!fits, "{hundredths}");
        }
    }
}

/// 7FFFh is no number, and nothing is written as it.
#[test]
fn the_invalid_code_is_never_written() {
    for hundredths in MOST - 100_000..=MOST {
        assert!(written(hundredths) <= 0x7ffe, "{hundredths}");
    }
}

// Increments and the total.

#[test]
fn increments_have_four_octets_the_first_two_00h_and_80h() {
    assert_eq!(increment(&[0x00, 0x80, 0x0c, 0x1a]), Some(0x0c1a));
    assert_eq!(increment(&[0x00, 0x80, 0x7f, 0xff]), Some(0x7fff));
    for octet in 0..=255 {
        let expected = Some(0x0c1a);
        let tpci = increment(&[octet, 0x80, 0x0c, 0x1a]);
        assert_eq!(tpci, expected.filter(|_| octet == 0x00), "{octet:02x}");
        let apci = increment(&[0x00, octet, 0x0c, 0x1a]);
        assert_eq!(apci, expected.filter(|_| octet == 0x80), "{octet:02x}");
    }
    let payload = [0x00, 0x80, 0x0c, 0x1a, 0x00, 0x80];
    for length in 0..=6 {
        assert_eq!(increment(&payload[..length]).is_some(), length == 4);
    }
}

#[test]
fn total_is_the_start_plus_the_sum() {
    let increments = [0x0c1a, 0x87ff, 0xf800, 0x0000, 0x7ffe, 0x0001];
    let mut total = 1_000;
    for code in increments {
        total = add(total, code).unwrap();
    }
    assert_eq!(total, 1_000 + 2_100 - 1 - 67_108_864 + 67_043_328 + 1);
}

#[test]
fn ends_of_the_total() {
    assert_eq!(add(i64::MAX - 2_100, 0x0c1a), Ok(i64::MAX));
    assert_eq!(add(i64::MAX - 2_099, 0x0c1a), Err(24));
    assert_eq!(add(i64::MIN + 1, 0x87ff), Ok(i64::MIN));
    assert_eq!(add(i64::MIN, 0x87ff), Err(24));
    assert_eq!(add(i64::MAX, 0xf800), Ok(i64::MAX - 67_108_864));
    assert_eq!(add(i64::MIN, 0x7ffe), Ok(i64::MIN + 67_043_328));
    for total in [i64::MIN, -1, 0, i64::MAX] {
        assert_eq!(add(total, 0x0000), Ok(total));
    }
}

/// An invalid increment has no sum, past the range or not.
#[test]
fn invalid_increment_is_23_at_every_total() {
    for total in [i64::MIN, -1, 0, i64::MAX - 1, i64::MAX] {
        assert_eq!(add(total, 0x7fff), Err(23));
    }
}
