//! The sender: reads a log, one queue and one thread a shard, a connection for each attempt, and waits for each answer.
use crate::segments::{Entry, each_entry};
use crate::snappy;
use crate::wire::{length_of, put_unsigned};
use std::collections::HashMap;
use std::io::{self, Read, Write};
use std::net::TcpStream;
use std::path::Path;
use std::sync::{Arc, Mutex, mpsc};
use std::thread;
use std::time::Duration;

const CAPACITY: usize = 10_000;
const PAUSE: Duration = Duration::from_millis(30);

/// Number of a series, timestamp, and the bits of a value.
type Item = (u32, i64, u64);

#[derive(Clone)]
pub struct Settings {
    pub address: String,
    pub shards: usize,
    pub batch: usize,
    pub is_packed: bool,
}

/// The label fields of each series, by its number.
type Names = Arc<Mutex<Vec<Vec<u8>>>>;

pub fn send(folder: &Path, settings: &Settings) -> io::Result<()> {
    let names = Names::default();
    let mut queues = Vec::new();
    let mut workers = Vec::new();
    for _ in 0..settings.shards {
        let (put, taken) = mpsc::sync_channel(CAPACITY);
        let (names, settings) = (names.clone(), settings.clone());
        queues.push(put);
        workers.push(thread::spawn(move || work(taken, &names, &settings)));
    }
    let (mut of_reference, mut of_labels) = (HashMap::new(), HashMap::new());
    each_entry(folder, |entry| match entry {
        Entry::Series(reference, labels) => {
            let next = of_labels.len() as u32;
            let series = *of_labels.entry(labels.clone()).or_insert_with(|| {
                names.lock().unwrap().push(labels);
                next
            });
            of_reference.insert(reference, series);
        }
        Entry::Sample(reference, t, value) => {
            if let Some(series) = of_reference.get(&reference) {
                queues[*series as usize % queues.len()].send((*series, t, value)).unwrap();
            }
        }
    })?;
    drop(queues);
    workers.into_iter().for_each(|it| it.join().unwrap());
    Ok(())
}

/// Prints the message that has all samples of a log.
pub fn print_body(folder: &Path) -> io::Result<()> {
    let (mut names, mut of_reference, mut of_labels) = (Vec::new(), HashMap::new(), HashMap::new());
    let mut all = Batch::default();
    each_entry(folder, |entry| match entry {
        Entry::Series(reference, labels) => {
            let next = of_labels.len() as u32;
            let series = *of_labels.entry(labels.clone()).or_insert_with(|| {
                names.push(labels);
                next
            });
            of_reference.insert(reference, series);
        }
        Entry::Sample(reference, t, value) => {
            if let Some(series) = of_reference.get(&reference) {
                all.take((*series, t, value));
            }
        }
    })?;
    io::stdout().write_all(&all.body(&names))
}

/// The samples of a batch, as fields of a message, series by series.
#[derive(Default)]
struct Batch {
    count: usize,
    order: Vec<u32>,
    fields: HashMap<u32, Vec<u8>>,
}

impl Batch {
    fn take(&mut self, (series, t, value): Item) {
        let order = &mut self.order;
        let fields = self.fields.entry(series).or_insert_with(|| {
            order.push(series);
            Vec::new()
        });
        put_sample(fields, t, value);
        self.count += 1;
    }

    fn body(&self, names: &[Vec<u8>]) -> Vec<u8> {
        let mut body = Vec::new();
        for series in &self.order {
            let (labels, samples) = (&names[*series as usize], &self.fields[series]);
            body.push(0x0a);
            put_unsigned(&mut body, (labels.len() + samples.len()) as u64);
            body.extend_from_slice(labels);
            body.extend_from_slice(samples);
        }
        body
    }
}

fn put_sample(out: &mut Vec<u8>, t: i64, value: u64) {
    let of_value = if value == 0 { 0 } else { 9 };
    let of_t = if t == 0 { 0 } else { 1 + length_of(t as u64) };
    out.push(0x12);
    out.push((of_value + of_t) as u8);
    if value != 0 {
        out.push(9);
        out.extend(value.to_le_bytes());
    }
    if t != 0 {
        out.push(16);
        put_unsigned(out, t as u64);
    }
}

fn work(taken: mpsc::Receiver<Item>, names: &Names, settings: &Settings) {
    let mut batch = Batch::default();
    for item in taken {
        batch.take(item);
        if batch.count == settings.batch {
            flush(std::mem::take(&mut batch), names, settings);
        }
    }
    if batch.count > 0 {
        flush(batch, names, settings);
    }
}

fn flush(batch: Batch, names: &Names, settings: &Settings) {
    let body = batch.body(&names.lock().unwrap());
    let (body, encoding) = if settings.is_packed { (snappy::encode(&body), "Content-Encoding: snappy\r\n") } else { (body, "") };
    let mut request = format!(
        "POST /api/v1/write HTTP/1.1\r\nHost: {}\r\nUser-Agent: plain\r\nContent-Type: application/x-protobuf\r\n{encoding}\
         X-Prometheus-Remote-Write-Version: 0.1.0\r\nConnection: close\r\nContent-Length: {}\r\n\r\n",
        settings.address,
        body.len()
    )
    .into_bytes();
    request.extend(body);
    while !matches!(attempt(&settings.address, &request), Ok(true)) {
        thread::sleep(PAUSE);
    }
}

/// Whether the receiver took it.
fn attempt(address: &str, request: &[u8]) -> io::Result<bool> {
    let mut stream = TcpStream::connect(address)?;
    stream.write_all(request)?;
    let mut reply = Vec::new();
    stream.read_to_end(&mut reply)?;
    let status = reply.get(9..12).unwrap_or(b"");
    if status.starts_with(b"4") && status != b"429" {
        panic!("refused: {}", String::from_utf8_lossy(&reply));
    }
    Ok(status.starts_with(b"2"))
}
