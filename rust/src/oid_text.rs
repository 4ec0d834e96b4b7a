//! Object identifiers as text: numbers with dots between them.

use core::fmt;

/// Contents octets, with zeros behind them, or a number in digits of seven bits, with zeros in front.
pub(crate) type Octets = [u8; 39];

/// The digits of a number in a base become those of a multiple of it and some more. What they have no room for is
/// returned.
const fn times_plus<const N: usize>(digits: &mut [u8; N], base: i32, times: i32, more: i32) -> i32 {
    let (mut at, mut carry) = (N, more);
    while at > 0 {
        at -= 1;
        carry += digits[at] as i32 * times;
        digits[at] = carry.rem_euclid(base) as u8;
        carry = carry.div_euclid(base);
    }
    carry
}

/// The number that stands here in the text, without needless zeros, with some more, and where it ends.
const fn number_at(text: &[u8], begin: usize, more: u8) -> Option<(Octets, usize)> {
    let (mut at, mut number) = (begin, [0; 39]);
    while at < text.len() && text[at] != b'.' {
        let is_needless = at > begin && text[begin] == b'0';
        if !text[at].is_ascii_digit() || is_needless {
            return None;
        }
        if times_plus(&mut number, 0x80, 10, (text[at] - b'0') as i32) != 0 {
            return None;
        }
        at += 1;
    }
    let fits = times_plus(&mut number, 0x80, 1, more as i32) == 0;
    if at > begin && fits { Some((number, at)) } else { None }
}

/// The contents octets of the identifier with this text, and how many there are.
pub(crate) const fn read(text: &[u8]) -> Option<(Octets, usize)> {
    let [first @ b'0'..=b'2', b'.', second, ..] = text else { return None };
    let (mut octets, mut length, mut end, mut more) = ([0; 39], 0, 1, 40 * (*first - b'0'));
    while end < text.len() {
        let Some((number, behind)) = number_at(text, end + 1, more) else { return None };
        let is_second_below_40 = behind == 3 || (behind == 4 && *second < b'4');
        if end == 1 && *first < b'2' && !is_second_below_40 {
            return None;
        }
        (end, more) = (behind, 0);
        let mut at = 0;
        while at < 38 && number[at] == 0 {
            at += 1;
        }
        while at < 39 {
            if length == 39 {
                return None;
            }
            octets[length] = number[at] | if at < 38 { 0x80 } else { 0 };
            (at, length) = (at + 1, length + 1);
        }
    }
    Some((octets, length))
}

/// Prints a number of seven bits in each octet, less one that is no greater.
fn print_number(octets: &[u8], less: i32, f: &mut fmt::Formatter<'_>) -> fmt::Result {
    let mut digits = [0; 85];
    for octet in octets {
        times_plus(&mut digits, 10, 0x80, i32::from(octet & 0x7f));
    }
    times_plus(&mut digits, 10, 1, -less);
    let zeros = digits[..84].iter().take_while(|digit| **digit == 0).count();
    digits[zeros..].iter().try_for_each(|digit| write!(f, "{digit}"))
}

/// Prints contents octets as numbers with dots between them.
pub(crate) fn print(octets: &[u8], f: &mut fmt::Formatter<'_>) -> fmt::Result {
    let mut numbers = octets.split_inclusive(|octet| *octet < 0x80);
    match numbers.next().unwrap_or_default() {
        [both @ ..80] => write!(f, "{}.{}", both / 40, both % 40)?,
        both => {
            f.write_str("2.")?;
            print_number(both, 80, f)?;
        }
    }
    numbers.try_for_each(|number| {
        f.write_str(".")?;
        print_number(number, 0, f)
    })
}
