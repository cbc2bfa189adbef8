//! The yardstick of `bench/run`: shipping in plain Rust, unproved, as one writes it in an afternoon.
//!
//!     plain send DIR SHARDS BATCH HOST:PORT [snappy]
//!     plain receive HOST:PORT [count]
mod crc;
mod receive;
mod segments;
mod send;
mod snappy;
mod wire;

use receive::Keeping;
use send::Settings;
use std::io;
use std::path::Path;

fn main() -> io::Result<()> {
    let words: Vec<String> = std::env::args().skip(1).collect();
    let words: Vec<&str> = words.iter().map(String::as_str).collect();
    match words[..] {
        ["send", folder, shards, batch, address, ref rest @ ..] => {
            let number = |word: &str| word.parse().expect("a number");
            let settings = Settings {
                address: address.to_string(),
                shards: number(shards),
                batch: number(batch),
                is_packed: rest == ["snappy"],
            };
            send::send(Path::new(folder), &settings)
        }
        ["body", folder] => send::print_body(Path::new(folder)),
        ["receive", address] => receive::receive(address, Keeping::All),
        ["receive", address, "count"] => receive::receive(address, Keeping::Count),
        _ => panic!("usage: plain send DIR SHARDS BATCH HOST:PORT [snappy] | plain body DIR | plain receive HOST:PORT [count]"),
    }
}
