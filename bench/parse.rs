// Reads the numbers of an instance file as a plain program would: splits at separators, parses decimals with up to six
// places into i128, and adds them up. It is what the reading of `hub` is compared with.
use std::{env, fs, process};

fn decimal(token: &str, places: usize) -> Option<i128> {
    let (negative, digits) = match token.strip_prefix('-') {
        Some(rest) => (true, rest),
        None => (false, token.strip_prefix('+').unwrap_or(token)),
    };
    let (whole, fraction) = digits.split_once('.').unwrap_or((digits, ""));
    let mut value: i128 = 0;
    let kept = fraction.bytes().chain(std::iter::repeat(b'0')).take(places);
    for byte in whole.bytes().chain(kept) {
        if !byte.is_ascii_digit() {
            return None;
        }
        value = value.checked_mul(10)?.checked_add(i128::from(byte - b'0'))?;
    }
    Some(if negative { -value } else { value })
}

fn main() {
    let name = env::args().nth(1).unwrap_or_else(|| process::exit(3));
    let text = fs::read_to_string(&name).unwrap_or_else(|_| process::exit(6));
    let mut numbers = Vec::new();
    for token in text.split([' ', '\t', '\r', '\n', ',', ';']).filter(|t| !t.is_empty()) {
        match decimal(token, 6) {
            Some(value) => numbers.push(value),
            None => process::exit(4),
        }
    }
    println!("{} {}", numbers.len(), numbers.iter().sum::<i128>());
}
