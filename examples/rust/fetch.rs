//! Fetches the metadata of a torrent from a peer. usage: fetch INFO-HASH ADDRESS:PORT >METADATA
use bt::{Config, End, Own, Role};
use std::error::Error;
use std::io::{Read, Write};
use std::net::TcpStream;

fn info_hash(text: &str) -> Result<[u8; 20], Box<dyn Error>> {
    let digits = (0..text.len()).step_by(2).map(|at| u8::from_str_radix(text.get(at..at + 2).unwrap_or(""), 16));
    digits.collect::<Result<Vec<_>, _>>()?.try_into().map_err(|_| "an info hash has 40 digits".into())
}

/// What `bt::fetch` does, with a line for each event.
fn main() -> Result<(), Box<dyn Error>> {
    let words: Vec<String> = std::env::args().collect();
    let [_, hash, peer] = &words[..] else { return Err("usage: fetch INFO-HASH ADDRESS:PORT".into()) };
    let own = Own { info_hash: Some(info_hash(hash)?), ..Own::default() };
    let mut end = End::new(&Config { own, role: Role::Fetch(None), ..Config::default() })?;
    let (mut stream, mut buffer) = (TcpStream::connect(peer)?, vec![0; 65_536]);
    while end.metadata().is_none() && !end.is_hopeless() && end.mismatches() == 0 {
        let waiting = end.outgoing();
        stream.write_all(&waiting)?;
        end.sent(waiting.len());
        let n = stream.read(&mut buffer)?;
        if n == 0 {
            break;
        }
        let mut bytes = &buffer[..n];
        while let Some(heard) = end.next(&mut bytes)? {
            eprintln!("{:?} {}", heard.event, heard.item.name());
        }
    }
    let metadata = end.metadata().ok_or("the peer doesn't give the metadata")?;
    Ok(std::io::stdout().write_all(&metadata)?)
}
