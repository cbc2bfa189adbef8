//! Makes a log as a Prometheus server writes it: numbered segments of a write-ahead log, records uncompressed.
//!
//!     log DIR SERIES ROUNDS [FIRST_MS]
//!
//! Each of SERIES series has four labels and one sample in each of ROUNDS rounds, 15 seconds apart from FIRST_MS on.
mod crc;
mod wire;

use std::fs::File;
use std::io::{self, BufWriter, Write};
use std::path::{Path, PathBuf};
use wire::{put_signed, put_unsigned};

const PAGE: usize = 32 * 1024;
const HEADER: usize = 7;
const SEGMENT: usize = 128 * 1024 * 1024;
const SERIES: u8 = 1;
const SAMPLES: u8 = 2;
const SAMPLES_OF_A_RECORD: u64 = 100;
const BYTES_OF_A_SERIES_RECORD: usize = 20_000;

struct Log {
    folder: PathBuf,
    segments: usize,
    length: usize,
    out: BufWriter<File>,
}

impl Log {
    fn create(folder: &Path) -> io::Result<Log> {
        std::fs::create_dir_all(folder)?;
        let out = segment(folder, 0)?;
        Ok(Log { folder: folder.to_path_buf(), segments: 1, length: 0, out })
    }

    fn write(&mut self, bytes: &[u8]) -> io::Result<()> {
        self.length += bytes.len();
        self.out.write_all(bytes)
    }

    /// Fills the page with zeros.
    fn end_page(&mut self) -> io::Result<()> {
        let left = (PAGE - self.length % PAGE) % PAGE;
        self.write(&vec![0; left])
    }

    fn next_segment(&mut self) -> io::Result<()> {
        self.end_page()?;
        self.out.flush()?;
        self.out = segment(&self.folder, self.segments)?;
        (self.segments, self.length) = (self.segments + 1, 0);
        Ok(())
    }

    /// Writes a record in as many fragments as the pages ask for.
    fn record(&mut self, record: &[u8]) -> io::Result<()> {
        if self.length >= SEGMENT {
            self.next_segment()?;
        }
        let (mut rest, mut is_first) = (record, true);
        loop {
            if PAGE - self.length % PAGE <= HEADER {
                self.end_page()?;
            }
            let room = PAGE - self.length % PAGE - HEADER;
            let (part, after) = rest.split_at(rest.len().min(room));
            self.fragment(kind(is_first, after.is_empty()), part)?;
            (rest, is_first) = (after, false);
            if rest.is_empty() {
                return Ok(());
            }
        }
    }

    fn fragment(&mut self, kind: u8, part: &[u8]) -> io::Result<()> {
        self.write(&[kind])?;
        self.write(&(part.len() as u16).to_be_bytes())?;
        self.write(&crc::of(part).to_be_bytes())?;
        self.write(part)
    }
}

fn segment(folder: &Path, number: usize) -> io::Result<BufWriter<File>> {
    Ok(BufWriter::with_capacity(1 << 20, File::create(folder.join(format!("{number:08}")))?))
}

fn kind(is_first: bool, is_last: bool) -> u8 {
    match (is_first, is_last) {
        (true, true) => 1,
        (true, false) => 2,
        (false, false) => 3,
        (false, true) => 4,
    }
}

/// The labels of a series, sorted by name.
fn labels(series: u64) -> [(&'static str, String); 4] {
    [
        ("__name__", format!("metric_{}_total", series % 100)),
        ("instance", format!("host-{}.example:9100", series / 100)),
        ("job", "node".to_string()),
        ("mode", format!("mode-{}", series % 8)),
    ]
}

fn put_text(out: &mut Vec<u8>, text: &str) {
    put_unsigned(out, text.len() as u64);
    out.extend_from_slice(text.as_bytes());
}

fn write_series(log: &mut Log, count: u64) -> io::Result<()> {
    let mut record = vec![SERIES];
    for series in 1..=count {
        record.extend(series.to_be_bytes());
        let labels = labels(series);
        put_unsigned(&mut record, labels.len() as u64);
        for (name, value) in &labels {
            put_text(&mut record, name);
            put_text(&mut record, value);
        }
        if record.len() > BYTES_OF_A_SERIES_RECORD || series == count {
            log.record(&record)?;
            record.truncate(1);
        }
    }
    Ok(())
}

/// Counters that grow by numbers from a fixed sequence.
struct Counters {
    seed: u64,
    values: Vec<f64>,
}

impl Counters {
    /// The next value of a series, and by how many milliseconds its sample is late.
    fn next(&mut self, series: u64) -> (f64, i64) {
        self.seed = self.seed.wrapping_mul(6_364_136_223_846_793_005).wrapping_add(1_442_695_040_888_963_407);
        let value = &mut self.values[series as usize];
        *value += (self.seed >> 40) as f64 / 1000.0;
        (*value, ((self.seed >> 33) % 7) as i64)
    }
}

fn write_round(log: &mut Log, counters: &mut Counters, count: u64, t: i64) -> io::Result<()> {
    let mut first = 1;
    while first <= count {
        let end = (first + SAMPLES_OF_A_RECORD).min(count + 1);
        let mut record = vec![SAMPLES];
        record.extend(first.to_be_bytes());
        record.extend(t.to_be_bytes());
        for series in first..end {
            let (value, late) = counters.next(series);
            put_signed(&mut record, (series - first) as i64);
            put_signed(&mut record, late);
            record.extend(value.to_bits().to_be_bytes());
        }
        log.record(&record)?;
        first = end;
    }
    Ok(())
}

fn main() -> io::Result<()> {
    let words: Vec<String> = std::env::args().collect();
    let number = |at: usize| words[at].parse::<u64>().expect("a number");
    let (count, rounds) = (number(2), number(3));
    let start = if words.len() > 4 { number(4) as i64 } else { 1_700_000_000_000 };
    let mut log = Log::create(Path::new(&words[1]))?;
    write_series(&mut log, count)?;
    let mut counters = Counters { seed: 12345, values: vec![0.0; count as usize + 1] };
    for round in 0..rounds {
        write_round(&mut log, &mut counters, count, start + 15_000 * round as i64)?;
    }
    log.out.flush()
}
