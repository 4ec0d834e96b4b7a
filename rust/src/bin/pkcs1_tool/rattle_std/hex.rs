//! The kit's crate `hex`.

/// Why digits aren't read or written.
#[derive(Debug)]
pub enum FromHexError {
    OddLength,
    InvalidStringLength,
    InvalidHexCharacter,
    OutOfMemory,
}

/// The octet of a digit below 16, without a branch.
fn octet_of(digit: u8) -> u8 {
    b'0' + digit + u8::from(digit > 9) * (b'a' - b'9' - 1)
}

/// The digit that an octet stands for, and a number above 15 for an octet that is none. Without a branch or a look-up,
/// so that LLVM takes many octets at once.
fn digit_of(octet: u8) -> u8 {
    let decimal = octet.wrapping_sub(b'0');
    let letter = (octet | 0x20).wrapping_sub(b'a');
    if decimal < 10 {
        decimal
    } else if letter < 6 {
        letter + 10
    } else {
        0xff
    }
}

pub fn encode_to_slice<T: AsRef<[u8]>>(data: T, out: &mut [u8]) -> Result<(), FromHexError> {
    let data = data.as_ref();
    if out.len() != data.len() * 2 {
        return Err(FromHexError::InvalidStringLength);
    }
    for (octet, pair) in data.iter().zip(out.chunks_exact_mut(2)) {
        (pair[0], pair[1]) = (octet_of(octet >> 4), octet_of(octet & 15));
    }
    Ok(())
}

pub fn decode_to_slice<T: AsRef<[u8]>>(data: T, out: &mut [u8]) -> Result<(), FromHexError> {
    let data = data.as_ref();
    if data.len() % 2 != 0 {
        return Err(FromHexError::OddLength);
    }
    if data.len() / 2 != out.len() {
        return Err(FromHexError::InvalidStringLength);
    }
    let mut all = 0;
    for (pair, octet) in data.chunks_exact(2).zip(out) {
        let [high, low] = [pair[0], pair[1]].map(digit_of);
        all |= high | low;
        *octet = high << 4 | low;
    }
    if all < 16 { Ok(()) } else { Err(FromHexError::InvalidHexCharacter) }
}
