//! Reads a write-ahead log, page by page.
use crate::crc;
use crate::wire::{Reader, length_of, put_unsigned};
use std::fs::File;
use std::io::{self, Read};
use std::path::{Path, PathBuf};

const PAGE: usize = 32 * 1024;
const HEADER: usize = 7;

/// What a log has.
pub enum Entry {
    /// The reference of a series, and its labels as fields of a message.
    Series(u64, Vec<u8>),
    /// The reference of a series, a timestamp, and the bits of a value.
    Sample(u64, i64, u64),
}

/// Hands each entry of the segments in a folder over, in order.
pub fn each_entry(folder: &Path, mut take: impl FnMut(Entry)) -> io::Result<()> {
    let mut paths: Vec<PathBuf> = std::fs::read_dir(folder)?.map(|it| it.map(|it| it.path())).collect::<Result<_, _>>()?;
    paths.sort();
    let mut record = Vec::new();
    for path in paths {
        let mut file = File::open(path)?;
        let mut page = Vec::with_capacity(PAGE);
        while file.by_ref().take(PAGE as u64).read_to_end(&mut page)? > 0 {
            each_record(&page, &mut record, &mut take);
            page.clear();
        }
    }
    Ok(())
}

fn each_record(page: &[u8], record: &mut Vec<u8>, take: &mut impl FnMut(Entry)) {
    let mut rest = page;
    while rest.len() >= HEADER && rest[0] != 0 {
        let (header, after) = rest.split_at(HEADER);
        let length = u16::from_be_bytes([header[1], header[2]]) as usize;
        let part = &after[..length];
        assert_eq!(crc::of(part), u32::from_be_bytes(header[3..].try_into().unwrap()), "a damaged fragment");
        record.extend_from_slice(part);
        if header[0] == 1 || header[0] == 4 {
            entries(record, take);
            record.clear();
        }
        rest = &after[length..];
    }
}

fn entries(record: &[u8], take: &mut impl FnMut(Entry)) {
    let mut reader = Reader::new(&record[1..]);
    match record[0] {
        1 => {
            while !reader.is_empty() {
                take(Entry::Series(reader.big_endian(), label_fields(&mut reader)));
            }
        }
        2 if !reader.is_empty() => {
            let (first, start) = (reader.big_endian(), reader.big_endian() as i64);
            while !reader.is_empty() {
                let reference = first.wrapping_add(reader.signed() as u64);
                let t = start.wrapping_add(reader.signed());
                take(Entry::Sample(reference, t, reader.big_endian()));
            }
        }
        _ => {}
    }
}

fn label_fields(reader: &mut Reader) -> Vec<u8> {
    let mut fields = Vec::new();
    for _ in 0..reader.unsigned() {
        let (name, value) = (reader.counted(), reader.counted());
        let length = 2 + length_of(name.len() as u64) + name.len() + length_of(value.len() as u64) + value.len();
        fields.push(0x0a);
        put_unsigned(&mut fields, length as u64);
        put_text(&mut fields, 0x0a, name);
        put_text(&mut fields, 0x12, value);
    }
    fields
}

fn put_text(out: &mut Vec<u8>, tag: u8, text: &[u8]) {
    out.push(tag);
    put_unsigned(out, text.len() as u64);
    out.extend_from_slice(text);
}
