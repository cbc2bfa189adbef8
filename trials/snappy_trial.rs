//! Plays the cases of the file `cases` against rw_snappy, and writes the answers to `answers`, for
//! trials/try-snappy. A case is a letter, how often it is played, a limit and a length of four bytes
//! each, the least significant first, and as many bytes. An answer is a status (0, or the number of
//! a fault), a length of eight bytes, and as many bytes.
#![tactic(auto)]

use rw_snappy::{Encoder, SnappyFault, check, decode, encode_literal};
use std::alloc::AllocError;
use std::{fs, io};

/// Returns the number of the fault of an answer, or 0.
fn status_of<T: Drop>(answer: Result<T, SnappyFault>) -> u8 {
    match answer {
        Ok(_) => 0,
        Err(fault) => fault as u8,
    }
}

/// Plays a case once, and returns its status.
fn play(
    encoder: &mut Encoder,
    letter: u8,
    limit: usize,
    bytes: &[u8],
    out: &mut Vec<u8>,
) -> Result<u8, AllocError> {
    match letter {
        b'd' => Ok(status_of(decode(bytes, limit, out)?)),
        b'c' => {
            out.clear();
            Ok(status_of(check(bytes, limit)))
        }
        b'e' if bytes.len() < 1 << 32 => {
            encoder.encode(bytes, out)?;
            Ok(0)
        }
        b'l' if bytes.len() < 1 << 32 => {
            encode_literal(bytes, out)?;
            Ok(0)
        }
        _ => Ok(99),
    }
}

/// Returns the next number of four bytes.
fn take_number(rest: &mut &[u8]) -> Option<usize> {
    let (number, after) = rest.split_first_chunk::<4>()?;
    *rest = after;
    Some(u32::from_le_bytes(*number) as usize)
}

/// Plays the next case as often as it says, and adds its answer. Returns false at the end.
fn play_next(
    encoder: &mut Encoder,
    rest: &mut &[u8],
    out: &mut Vec<u8>,
    answers: &mut Vec<u8>,
) -> Result<bool, AllocError> {
    let Some((letter, after)) = rest.split_first() else {
        return Ok(false);
    };
    *rest = after;
    let (Some(times), Some(limit), Some(len)) =
        (take_number(rest), take_number(rest), take_number(rest))
    else {
        return Ok(false);
    };
    if rest.len() < len {
        return Ok(false);
    }
    let (bytes, after) = rest.split_at(len);
    *rest = after;
    let mut status = 0;
    for _ in 0..times {
        status = play(encoder, *letter, limit, bytes, out)?;
    }
    answers.push(status)?;
    answers.extend_from_slice(&(out.len() as u64).to_le_bytes())?;
    answers.extend_from_slice(out)?;
    Ok(true)
}

fn main(rt: HostRuntime) -> io::Result<()> {
    let cases = fs::read(&rt, "cases")?;
    let mut encoder = Encoder::new(rt.alloc())?;
    let mut out = Vec::new(rt.alloc());
    let mut answers = Vec::new(rt.alloc());
    let mut rest = cases.as_slice();
    for _ in 0..cases.len() {
        if !play_next(&mut encoder, &mut rest, &mut out, &mut answers)? {
            break;
        }
    }
    fs::write(&rt, "answers", &answers)
}
