//! The receiver: a thread for each connection, and the samples by label set under one lock.
use crate::snappy;
use crate::wire::Reader;
use std::collections::HashMap;
use std::io::{self, Read, Write};
use std::net::{TcpListener, TcpStream};
use std::sync::{Arc, Mutex};
use std::thread;

type Labels = Vec<(String, String)>;

/// Timestamp, and the bits of a value.
type Sample = (i64, u64);

#[derive(Clone, Copy, PartialEq)]
pub enum Keeping {
    All,
    /// The samples are counted, and let go.
    Count,
}

#[derive(Default)]
struct Store {
    samples: HashMap<Labels, Vec<Sample>>,
    count: usize,
}

impl Store {
    fn take(&mut self, series: Vec<(Labels, Vec<Sample>)>, keeping: Keeping) {
        for (labels, samples) in series {
            if keeping == Keeping::Count {
                self.count += samples.len();
                continue;
            }
            let held = self.samples.entry(labels).or_default();
            for sample in samples {
                if held.last().is_none_or(|last| last.0 < sample.0) {
                    held.push(sample);
                    self.count += 1;
                }
            }
        }
    }
}

/// Serves until standard input ends, and prints how many series and samples it took.
pub fn receive(address: &str, keeping: Keeping) -> io::Result<()> {
    let listener = TcpListener::bind(address)?;
    let store = Arc::new(Mutex::new(Store::default()));
    let shared = store.clone();
    thread::spawn(move || {
        for stream in listener.incoming() {
            let store = shared.clone();
            thread::spawn(move || stream.and_then(|it| serve(it, &store, keeping)));
        }
    });
    io::copy(&mut io::stdin(), &mut io::sink())?;
    let store = store.lock().unwrap();
    println!("{} series, {} samples", store.samples.len(), store.count);
    Ok(())
}

fn serve(mut stream: TcpStream, store: &Mutex<Store>, keeping: Keeping) -> io::Result<()> {
    let (head, body) = request(&mut stream)?;
    if head.is_empty() {
        return Ok(());
    }
    let body = if head.contains("content-encoding: snappy") { snappy::decode(&body) } else { body };
    let series = message(&body);
    store.lock().unwrap().take(series, keeping);
    stream.write_all(b"HTTP/1.1 204 No Content\r\nConnection: close\r\n\r\n")
}

/// The head of a request in lower case, and its body.
fn request(stream: &mut TcpStream) -> io::Result<(String, Vec<u8>)> {
    let mut bytes = Vec::new();
    let mut part = [0; 64 * 1024];
    let end = loop {
        let count = stream.read(&mut part)?;
        if count == 0 {
            return Ok((String::new(), bytes));
        }
        bytes.extend_from_slice(&part[..count]);
        if let Some(at) = bytes.windows(4).position(|it| it == b"\r\n\r\n") {
            break at + 4;
        }
    };
    let head = String::from_utf8_lossy(&bytes[..end]).to_lowercase();
    let length: usize = head.lines().find_map(|it| it.strip_prefix("content-length: ")).and_then(|it| it.parse().ok()).unwrap_or(0);
    bytes.drain(..end);
    bytes.reserve(length.saturating_sub(bytes.len()));
    while bytes.len() < length {
        let count = stream.read(&mut part)?;
        if count == 0 {
            return Err(io::ErrorKind::UnexpectedEof.into());
        }
        bytes.extend_from_slice(&part[..count]);
    }
    Ok((head, bytes))
}

fn message(body: &[u8]) -> Vec<(Labels, Vec<Sample>)> {
    let mut reader = Reader::new(body);
    let mut all = Vec::new();
    while !reader.is_empty() {
        let (tag, field) = (reader.unsigned(), reader.counted());
        if tag == 0x0a {
            all.push(series(field));
        }
    }
    all
}

fn series(bytes: &[u8]) -> (Labels, Vec<Sample>) {
    let (mut labels, mut samples) = (Vec::new(), Vec::new());
    let mut reader = Reader::new(bytes);
    while !reader.is_empty() {
        let (tag, field) = (reader.unsigned(), reader.counted());
        match tag {
            0x0a => labels.push(label(field)),
            0x12 => samples.push(sample(field)),
            _ => {}
        }
    }
    (labels, samples)
}

fn label(bytes: &[u8]) -> (String, String) {
    let (mut name, mut value) = (String::new(), String::new());
    let mut reader = Reader::new(bytes);
    while !reader.is_empty() {
        let (tag, text) = (reader.unsigned(), reader.counted());
        let text = String::from_utf8(text.to_vec()).expect("text");
        if tag == 0x0a { name = text } else { value = text }
    }
    (name, value)
}

fn sample(bytes: &[u8]) -> Sample {
    let (mut t, mut value) = (0, 0);
    let mut reader = Reader::new(bytes);
    while !reader.is_empty() {
        match reader.unsigned() {
            9 => value = reader.little_endian(),
            _ => t = reader.unsigned() as i64,
        }
    }
    (t, value)
}
