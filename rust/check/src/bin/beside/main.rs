//! beside COUNT SEED ROWS..: the crate beside the library that is built of what the proof's own compiler made.
//!
//! Each reader is given the encodings in the files of worked rows, and COUNT inputs that are made by chance. Both
//! answer the same: the value or the status, and what is written again. Prints the first inputs with another answer.

mod answers;
mod inputs;

#[link(name = "built", kind = "static")]
unsafe extern "C" {
    /// Writes what the reader of this number answers, and returns how many octets that takes.
    fn built_answer(reader: u32, der: *const u8, len: usize, answer: *mut u8) -> usize;
}

/// The kinds of ffi/tests/rows.c.
const READERS: &str = "pub priv info pss pss-strict pss-algorithm pss-algorithm-strict \
                       oaep oaep-strict oaep-algorithm oaep-algorithm-strict";

/// How answers went.
#[derive(Default)]
struct Count {
    inputs: u64,
    read: [u64; 11],
    differ: u64,
}

/// Whether a reader reads a value.
fn compare(bytes: &[u8], room: &mut [u8], count: &mut Count) -> bool {
    count.inputs += 1;
    let before = count.read;
    for (reader, ours) in answers::answers(bytes).into_iter().enumerate() {
        // SAFETY: the slice is valid, and the answer takes no more octets than 16 for each of the input, and 1000.
        let len = unsafe { built_answer(reader as u32, bytes.as_ptr(), bytes.len(), room.as_mut_ptr()) };
        count.read[reader] += u64::from(ours[0] == 0);
        if ours != room[..len] {
            count.differ += 1;
            if count.differ <= 10 {
                let hex: String = bytes.iter().map(|octet| format!("{octet:02x}")).collect();
                let reader = READERS.split(' ').nth(reader).unwrap();
                println!("{reader}: {hex}\n    is {ours:02x?}\n    not {:02x?}", &room[..len]);
            }
        }
    }
    count.read != before
}

fn main() -> Result<std::process::ExitCode, Box<dyn std::error::Error>> {
    let mut words = std::env::args().skip(1);
    let count: u64 = words.next().ok_or("no COUNT")?.parse()?;
    let seed: u64 = words.next().ok_or("no SEED")?.parse()?;
    let mut seeds = check::words::encodings(words)?;
    let longest = seeds.iter().map(Vec::len).max().ok_or("no row has an encoding")?;
    let mut room = vec![0; 16 * (4 * longest + 1000)];
    let (mut chance, mut counted) = (inputs::Chance::new(seed), Count::default());
    let (valid, others): (Vec<_>, Vec<_>) = seeds.drain(..).partition(|bytes| compare(bytes, &mut room, &mut counted));
    seeds.extend([&valid[..], &valid[..], &valid[..], &others[..]].concat());
    for _ in 0..count {
        compare(&inputs::made(&mut chance, &seeds), &mut room, &mut counted);
    }
    let Count { inputs, read, differ } = counted;
    println!("seed {seed}: {inputs} inputs to each reader, {differ} answers differ; values read: {read:?}");
    Ok(std::process::ExitCode::from(u8::from(differ > 0 || read.contains(&0))))
}
