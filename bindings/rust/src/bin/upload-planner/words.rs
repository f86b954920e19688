//! Words of a text or of the arguments.

/// A whole number in decimal. One with more digits than can be counted is as large as can be, which
/// is over every limit.
pub fn whole(word: &str) -> Option<u64> {
    let digits = !word.is_empty() && word.bytes().all(|byte| byte.is_ascii_digit());
    digits.then(|| word.parse().unwrap_or(u64::MAX))
}

/// The same for a number of which the library has limits. All of them are below 65,535, so that it
/// refuses that as it would refuse a larger one.
pub fn small(word: &str) -> Option<u16> {
    whole(word).map(|number| u16::try_from(number).unwrap_or(u16::MAX))
}

/// What is wrong with a word that is no whole number.
pub const NOT_WHOLE: &str = "is no whole number from 0";

/// How many of something are there, for a message.
pub fn there(count: usize) -> String {
    match count {
        1 => "1 is there".to_string(),
        _ => format!("{count} are there"),
    }
}

/// A word for a message: the first forty characters, in quotes, of which none is sent as it is that
/// a terminal would obey.
pub fn quoted(word: &str) -> String {
    let first: String = word.chars().take(40).collect();
    format!("{first:?}")
}
