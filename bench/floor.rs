//! The floor of `bench/run`: the same bytes over the same kind of connections, and no other work.
//!
//!     floor send FILE HOST:PORT       sends each body of FILE over a connection of its own
//!     floor receive HOST:PORT [FILE]  answers each request with 204, and keeps nothing, or the
//!                                     bodies in FILE: of each 8 bytes of length, and its bytes
use std::fs::File;
use std::io::{self, BufReader, BufWriter, Read, Write};
use std::net::{TcpListener, TcpStream};
use std::sync::mpsc::{self, Sender};
use std::thread;

const TAKEN: &[u8] = b"HTTP/1.1 204 No Content\r\nConnection: close\r\n\r\n";

/// Returns the head of a request with a body of this length.
fn head(length: u64) -> String {
    format!(
        "POST /api/v1/write HTTP/1.1\r\nHost: localhost\r\nUser-Agent: rwship/1.0\r\n\
         Content-Type: application/x-protobuf\r\nX-Prometheus-Remote-Write-Version: 0.1.0\r\n\
         Connection: close\r\nContent-Length: {length}\r\n\r\n"
    )
}

fn send(path: &str, address: &str) -> io::Result<()> {
    let mut file = BufReader::with_capacity(1 << 20, File::open(path)?);
    let (mut length, mut request, mut reply) = ([0; 8], Vec::new(), [0; 4096]);
    while file.read_exact(&mut length).is_ok() {
        let length = u64::from_le_bytes(length);
        request.clear();
        request.extend_from_slice(head(length).as_bytes());
        let at = request.len();
        request.resize(at + length as usize, 0);
        file.read_exact(&mut request[at..])?;
        let mut stream = TcpStream::connect(address)?;
        stream.write_all(&request)?;
        while stream.read(&mut reply)? > 0 {}
    }
    Ok(())
}

/// Returns the length of the body that a head announces.
fn announced(head: &[u8]) -> usize {
    let head = String::from_utf8_lossy(head).to_ascii_lowercase();
    let (_, rest) = head.split_once("content-length: ").expect("a length");
    rest.lines().next().and_then(|it| it.trim().parse().ok()).expect("a number")
}

/// Reads a request, hands its body to `keep` piece by piece, and answers it.
fn serve(stream: &mut TcpStream, room: &mut [u8], mut keep: impl FnMut(&[u8])) -> io::Result<usize> {
    let mut have = 0;
    let start = loop {
        let count = stream.read(&mut room[have..])?;
        if count == 0 {
            return Ok(0);
        }
        have += count;
        if let Some(at) = room[..have].windows(4).position(|it| it == b"\r\n\r\n") {
            break at + 4;
        }
    };
    let length = announced(&room[..start]);
    keep(&(length as u64).to_le_bytes());
    keep(&room[start..have]);
    let mut left = length - (have - start);
    while left > 0 {
        let count = stream.read(room)?;
        keep(&room[..count]);
        left -= count;
    }
    stream.write_all(TAKEN)?;
    Ok(length)
}

fn receive(address: &str, kept: Option<&str>, ended: Sender<usize>) -> io::Result<()> {
    let listener = TcpListener::bind(address)?;
    let mut kept = kept.map(File::create).transpose()?.map(|it| BufWriter::with_capacity(1 << 20, it));
    let mut room = vec![0; 1 << 20];
    for stream in listener.incoming() {
        let keep = |piece: &[u8]| {
            if let Some(file) = &mut kept {
                file.write_all(piece).expect("room on the disk");
            }
        };
        let length = serve(&mut stream?, &mut room, keep)?;
        if let Some(file) = &mut kept {
            file.flush()?;
        }
        ended.send(length).expect("the other thread");
    }
    Ok(())
}

fn main() -> io::Result<()> {
    let words: Vec<String> = std::env::args().skip(1).collect();
    let words: Vec<&str> = words.iter().map(String::as_str).collect();
    match words[..] {
        ["send", path, address] => send(path, address),
        ["receive", address, ref rest @ ..] => {
            let (ended, lengths) = mpsc::channel();
            let (address, kept) = (address.to_string(), rest.first().map(|it| it.to_string()));
            thread::spawn(move || receive(&address, kept.as_deref(), ended));
            io::copy(&mut io::stdin(), &mut io::sink())?;
            println!("{} bytes", lengths.try_iter().sum::<usize>());
            Ok(())
        }
        _ => panic!("see the head of bench/floor.rs"),
    }
}
