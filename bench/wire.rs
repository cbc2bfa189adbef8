//! Varints, which the log and the messages of Remote-Write have in common.
#![allow(dead_code)] // each program uses some of them

pub fn put_unsigned(out: &mut Vec<u8>, mut number: u64) {
    while number >= 128 {
        out.push(number as u8 | 128);
        number >>= 7;
    }
    out.push(number as u8);
}

pub fn put_signed(out: &mut Vec<u8>, number: i64) {
    put_unsigned(out, ((number << 1) ^ (number >> 63)) as u64);
}

pub fn length_of(number: u64) -> usize {
    ((64 - (number | 1).leading_zeros()) as usize).div_ceil(7)
}

/// Bytes that are read from the front.
pub struct Reader<'a> {
    pub rest: &'a [u8],
}

impl<'a> Reader<'a> {
    pub fn new(rest: &'a [u8]) -> Reader<'a> {
        Reader { rest }
    }

    pub fn is_empty(&self) -> bool {
        self.rest.is_empty()
    }

    pub fn take(&mut self, count: usize) -> &'a [u8] {
        let (front, rest) = self.rest.split_at(count);
        self.rest = rest;
        front
    }

    pub fn byte(&mut self) -> u8 {
        self.take(1)[0]
    }

    pub fn big_endian(&mut self) -> u64 {
        u64::from_be_bytes(self.take(8).try_into().unwrap())
    }

    pub fn little_endian(&mut self) -> u64 {
        u64::from_le_bytes(self.take(8).try_into().unwrap())
    }

    pub fn unsigned(&mut self) -> u64 {
        let (mut number, mut shift) = (0, 0);
        loop {
            let byte = self.byte();
            number |= ((byte & 127) as u64) << shift;
            if byte < 128 {
                return number;
            }
            shift += 7;
        }
    }

    pub fn signed(&mut self) -> i64 {
        let number = self.unsigned();
        (number >> 1) as i64 ^ -((number & 1) as i64)
    }

    /// What follows its own length.
    pub fn counted(&mut self) -> &'a [u8] {
        let count = self.unsigned() as usize;
        self.take(count)
    }
}
