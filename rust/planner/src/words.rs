//! Numbers and names in a sentence.

/// A number of things: "1 line", "2 lines".
///
/// ```
/// use planner::words::counted;
/// assert_eq!([0, 1, 2].map(|lines| counted(lines, "line")), ["0 lines", "1 line", "2 lines"]);
/// ```
pub fn counted(number: usize, what: &str) -> String {
    format!("{number} {}", plural(number, what))
}

/// What a number of things is called.
pub fn plural(number: usize, what: &str) -> String {
    format!("{what}{}", if number == 1 { "" } else { "s" })
}

/// Names in a row: "a, b and c".
///
/// ```
/// use planner::words::together;
/// let names = ["4.7", "4.8", "5.1"].map(String::from);
/// assert_eq!(together(&names), "4.7, 4.8 and 5.1");
/// assert_eq!(together(&names[..1]), "4.7");
/// ```
pub fn together(names: &[String]) -> String {
    match names {
        [] => String::new(),
        [one] => one.clone(),
        [first @ .., last] => format!("{} and {last}", first.join(", ")),
    }
}
