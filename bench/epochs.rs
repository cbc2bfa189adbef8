//! Changes the number of shards of a sender 10,000 times, and prints how long a look at the load takes
//! and how many pages the process has, after 10, 100, 1,000 and 10,000 changes.
//!
//! It is no crate of the repository, so that the gate need not prove it. To run it: copy it to
//! `crates/epochs_bench/src/main.rt`, add the line `epochs_bench may_wait=3: rw_types rw_wal_write
//! rw_wal_tail rw_sender http` to `crates.txt`, and call `rt run` in `crates/epochs_bench`, which
//! proves it first. Take both back then.
#![tactic(auto)]

use http::StatusCode;
use rw_sender::{
    Config, ConfigFields, Connect, Lost, Pause, Reply, Shipper, Transport,
};
use rw_types::{Bounded, RawLabels, Room, Word};
use rw_wal_tail::Piece;
use rw_wal_write::{SegmentWriter, sample_record, series_record};
use std::alloc::{AllocError, Global};
use std::fs;
use std::sync::Wait;
use std::thread::Threads;
use std::time::{Clock, Instant};

/// How many changes of the number of shards there are at each line.
const MARKS: [u32; 4] = [10, 100, 1_000, 10_000];

/// How often the load is asked for at each line.
const TURNS: u32 = 1_000;

#[derive(Clone, Copy)]
struct Quick;

impl Pause for Quick {
    ghost use Rattle.std.specs.Prelude.{[]};

    ghost tells = { λ _. ⊥ };

    ghost paused = { λ _. [] };

    fn pause(&mut self, _ms: u64) {}
}

/// Acknowledges each request.
#[derive(Drop)]
struct Sink {
    status: StatusCode,
}

impl Transport for Sink {
    ghost use Rattle.std.specs.Prelude.{⊤, []};

    ghost is_for = { λ _ _ _. ⊤ };

    ghost tells = { λ _. ⊥ };

    ghost seen = { λ _. [] };

    fn exchange(&mut self, _request: &[u8]) -> Result<Reply, Lost> {
        Ok(Reply { status: self.status })
    }
}

#[derive(Drop)]
struct Sinks {
    status: StatusCode,
}

impl Connect for Sinks {
    type T = Sink;

    type P = Quick;

    fn transport(&mut self, _epoch: u64, _shard: u32) -> Result<(Sink, Quick), AllocError> {
        Ok((Sink { status: self.status }, Quick))
    }
}

fn log_of(alloc: Global, t: i64, defines: bool) -> Option<Vec<u8>> {
    let mut writer = SegmentWriter::new(Room::new(alloc, 32_000).ok()?, 1);
    if defines {
        for reference in 1..4u64 {
            let mut labels = RawLabels::new(alloc);
            let byte = [(b'a' + reference as u8)];
            labels.push(b"__name__", &byte).ok()?;
            let record = series_record(alloc, reference, &labels).ok()?;
            writer.log(&record).ok()?;
        }
    }
    let mut samples = Vec::new(alloc);
    for k in 0..100i64 {
        for reference in 1..4u64 {
            samples.push((reference, t.saturating_mul(1_000).saturating_add(k), Word(7))).ok()?;
        }
    }
    let record = sample_record(alloc, &samples).ok()?;
    writer.log(&record).ok()?;
    Some(writer.into_inner().into_bytes())
}

/// Makes one epoch.
fn turn<R: Threads + Wait + Copy + Send + 'static>(
    rt: &R,
    alloc: Global,
    shipper: &mut Shipper<Sinks>,
    epoch: u32,
) -> Option<()> {
    shipper.feed(rt, Piece::NextSegment).ok()?;
    let log = log_of(alloc, epoch as i64, epoch == 0)?;
    shipper.feed(rt, Piece::Bytes(log)).ok()?;
    shipper.reshard(rt, 1 + epoch % 3).ok()
}

/// Returns the nanoseconds of a call.
fn time_of<R: Clock>(rt: &R, shipper: &Shipper<Sinks>) -> Option<u64> {
    let start = Instant::now(rt).ok()?;
    let mut placed = 0u64;
    for _ in 0..TURNS {
        placed = placed.max(shipper.load().placed);
    }
    let all = start.elapsed(rt).ok()?;
    if placed == 0 {
        return None;
    }
    let micros = u64::try_from(all.as_micros()).ok()?;
    Some(micros.saturating_mul(1_000) / TURNS as u64)
}

fn shipper_of<R: Threads + Wait + Copy + Send + 'static>(
    rt: &R,
    alloc: Global,
) -> Option<Shipper<Sinks>> {
    let mut fields = ConfigFields::standard(alloc).ok()?;
    fields.shards = Bounded::new(1);
    let config = Config::new(fields)?;
    let status = StatusCode::from_u16(204).ok()?;
    Shipper::start(rt, alloc, config, Sinks { status }).ok()
}

fn main(rt: HostRuntime) {
    let alloc = rt.alloc();
    let Some(mut shipper) = shipper_of(&rt, alloc) else {
        return;
    };
    let mut done = 0u32;
    for mark in MARKS {
        for epoch in done..mark {
            if turn(&rt, alloc, &mut shipper, epoch).is_none() {
                let _ = println!(rt; "failed at {epoch}");
            }
        }
        done = mark;
        let nanos = time_of(&rt, &shipper).unwrap_or(0);
        let pages = match fs::read_to_string(&rt, "/proc/self/statm") {
            Ok(text) => text,
            Err(_) => String::new(alloc),
        };
        let _ = println!(rt; "epochs {mark}: a load {nanos} ns, statm {pages}");
    }
    shipper.stop_hard(&rt);
}
