//! Amounts of time on the command line.

use crate::limits::MOST_SETTING;

/// The nanoseconds that a word says: a plus or none, a decimal number, and its unit. None where that is no whole number
/// of them, or is above the greatest setting.
pub fn amount_of(word: &str) -> Option<u64> {
    let word = word.strip_prefix('+').unwrap_or(word);
    let end = word.find(|letter: char| !letter.is_ascii_digit() && letter != '.').unwrap_or(word.len());
    let (number, unit) = word.split_at(end);
    let (whole, fraction) = match number.split_once('.') {
        Some((_, "")) => return None,
        Some(parts) => parts,
        None => (number, ""),
    };
    if whole.is_empty() || fraction.contains('.') {
        return None;
    }
    let zeros = zeros_of(unit)?;
    let fraction = fraction.trim_end_matches('0');
    if fraction.len() > zeros {
        return None;
    }
    let digits = format!("{whole}{fraction:0<zeros$}");
    let digits = digits.trim_start_matches('0');
    let amount = if digits.is_empty() { 0 } else { digits.parse().ok()? };
    (amount <= MOST_SETTING).then_some(amount)
}

/// How many zeros stand behind the 1 of a unit's nanoseconds.
fn zeros_of(unit: &str) -> Option<usize> {
    match unit {
        "" | "ns" => Some(0),
        "us" => Some(3),
        "ms" => Some(6),
        "s" => Some(9),
        _ => {
            let power = unit.strip_prefix('e')?;
            if !power.bytes().all(|digit| digit.is_ascii_digit()) {
                return None;
            }
            power.parse().ok().filter(|zeros| *zeros <= 12)
        }
    }
}
