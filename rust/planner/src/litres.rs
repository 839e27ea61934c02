//! Litres as people read and write them; inside, hundredths in whole numbers.

/// Hundredths as litres, with commas between thousands.
///
/// ```
/// use planner::litres::shown;
/// assert_eq!(shown(876_000), "8,760.00");
/// assert_eq!(shown(-5), "-0.05");
/// assert_eq!(shown(i64::MIN), "-92,233,720,368,547,758.08");
/// ```
pub fn shown(hundredths: i64) -> String {
    let (sign, whole, part) = parts(hundredths);
    format!("{sign}{}.{part:02}", thousands(whole))
}

/// Hundredths as litres, with digits alone, for scripts.
///
/// ```
/// assert_eq!(planner::litres::plain(876_000), "8760.00");
/// ```
pub fn plain(hundredths: i64) -> String {
    let (sign, whole, part) = parts(hundredths);
    format!("{sign}{whole}.{part:02}")
}

/// The hundredths of a number of litres with at most two decimals.
///
/// ```
/// use planner::litres::read;
/// assert_eq!(read("8760"), Some(876_000));
/// assert_eq!(read("-0.5"), Some(-50));
/// assert_eq!(read("+12.34"), Some(1_234));
/// assert_eq!(read("-92233720368547758.08"), Some(i64::MIN));
/// for text in ["", "-", "1.", ".5", "1.234", "1,000", "1e3", "92233720368547758.08"] {
///     assert_eq!(read(text), None);
/// }
/// ```
pub fn read(text: &str) -> Option<i64> {
    let (sign, rest) = match text.strip_prefix('-') {
        Some(rest) => (-1, rest),
        None => (1, text.strip_prefix('+').unwrap_or(text)),
    };
    let (whole, part) = match rest.split_once('.') {
        Some((whole, part)) if (1..=2).contains(&part.len()) => (whole, part),
        Some(_) => return None,
        None => (rest, ""),
    };
    let is_number = |text: &str| text.bytes().all(|digit| digit.is_ascii_digit());
    if whole.is_empty() || !is_number(whole) || !is_number(part) {
        return None;
    }
    let hundredths: i128 = format!("{whole}{part:0<2}").parse().ok()?;
    (sign * hundredths).try_into().ok()
}

/// A number with commas between thousands.
///
/// ```
/// use planner::litres::thousands;
/// assert_eq!([0, 999, 1_000, 525_600].map(thousands), ["0", "999", "1,000", "525,600"]);
/// ```
pub fn thousands(number: u64) -> String {
    let digits = number.to_string();
    let mut shown = String::new();
    for (place, digit) in digits.chars().enumerate() {
        if place > 0 && (digits.len() - place).is_multiple_of(3) {
            shown.push(',');
        }
        shown.push(digit);
    }
    shown
}

fn parts(hundredths: i64) -> (&'static str, u64, u64) {
    let size = hundredths.unsigned_abs();
    (
        if hundredths < 0 { "-" } else { "" },
        size / 100,
        size % 100,
    )
}
