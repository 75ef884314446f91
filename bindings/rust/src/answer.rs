//! The 64-bit answers of the library, and the outputs that are lent to it.

use crate::{MAX_LENGTH, Refusal};

const OUTPUT_TOO_SHORT: Refusal = Refusal::of(18);

/// The low word, or none, or the refusal.
pub fn found(answer: u64) -> Result<Option<u32>, Refusal> {
    let (high, low) = (answer >> 32, answer as u32);
    match high {
        0 => Ok(Some(low)),
        1 => match u8::try_from(low).ok().and_then(Refusal::new) {
            Some(refusal) => Err(refusal),
            None => unknown(answer),
        },
        2 => Ok(None),
        _ => unknown(answer),
    }
}

/// The low word of a call that always finds something, or the refusal.
pub fn given(answer: u64) -> Result<u32, Refusal> {
    match found(answer)? {
        Some(low) => Ok(low),
        None => unknown(answer),
    }
}

/// The answer of a question, or the refusal.
pub fn yes(answer: u64) -> Result<bool, Refusal> {
    Ok(given(answer)? != 0)
}

/// How many bytes were written, or the refusal.
pub fn length(answer: u64) -> Result<usize, Refusal> {
    Ok(given(answer)? as usize)
}

/// The part of the context that was found: place * 65536 + length.
pub fn part(c: &[u8], answer: u64) -> Result<Option<&[u8]>, Refusal> {
    let part = |low: u32| {
        let (place, length) = (low as usize >> 16, low as usize & 0xFFFF);
        &c[place..place + length]
    };
    Ok(found(answer)?.map(part))
}

fn unknown(answer: u64) -> ! {
    panic!("the library answers {answer:016X}, which this header does not have: another version?")
}

/// What a call writes to an output of this length, which always suffices.
pub fn written<W>(room: usize, write: W) -> Result<Vec<u8>, Refusal>
where
    W: FnOnce(&mut [u8]) -> Result<usize, Refusal>,
{
    let mut out = vec![0; room];
    let length = write(&mut out)?;
    out.truncate(length);
    Ok(out)
}

/// The value that a call writes. A longer one than this is refused 17, which comes before 18.
pub fn written_value<W>(write: W) -> Result<Vec<u8>, Refusal>
where
    W: FnOnce(&mut [u8]) -> Result<usize, Refusal>,
{
    let mut out = [0; MAX_LENGTH];
    let length = write(&mut out)?;
    Ok(out[..length].to_vec())
}

/// What a call writes where no simple bound is known: the output grows until it suffices.
pub fn written_growing<W>(first: usize, write: W) -> Result<Vec<u8>, Refusal>
where
    W: Fn(&mut [u8]) -> Result<usize, Refusal>,
{
    let mut room = first;
    loop {
        match written(room, &write) {
            Err(OUTPUT_TOO_SHORT) => room *= 4,
            answer => return answer,
        }
    }
}

/// How many bytes of an argument count for the scratch and the output: a longer one is refused for
/// its length before either is looked at.
pub fn counted(arg: &[u8]) -> usize {
    arg.len().min(MAX_LENGTH)
}
