//! Prints the items of a stream as `bt_tool show` does.
//!
//! usage: show [FILE..], or show <STREAM. The options of `show` are read from the environment: RULES=free or bep, LIMIT, PIECES. PIECE
//! is how many bytes are fed at once.
use bt::{Extended, Feed, FeedItems, Message, Own, Refused};
use std::env;
use std::error::Error;
use std::fmt::Write as _;
use std::io::{Read, Write};

fn hex(bytes: &[u8]) -> String {
    bytes.iter().map(|byte| format!("{byte:02x}")).collect()
}

/// A value, or a dash.
fn or_dash(value: Option<impl ToString>) -> String {
    value.map_or("-".to_string(), |it| it.to_string())
}

/// The words of an extended message after its name.
fn extended(id: u8, payload: &[u8], told: &Extended<'_>) -> String {
    match *told {
        Extended::Handshake { dict, rest, metadata_size, ut_metadata } => {
            format!(" {} {} size={} ut_metadata={}", dict.len(), rest.len(), or_dash(metadata_size), or_dash(ut_metadata))
        }
        Extended::MetadataRequest(piece) | Extended::MetadataReject(piece) | Extended::DontHave(piece) => format!(" {piece}"),
        Extended::MetadataData { piece, total_size, block } => format!(" {piece} {total_size} {}", block.len()),
        Extended::MetadataOther { dict, rest } | Extended::MetadataMalformed { dict, rest } => {
            format!(" {} {}", dict.len(), rest.len())
        }
        Extended::Raw => format!(" {id} {}", payload.len()),
        _ => String::new(),
    }
}

/// The words of an item after its name.
fn words(message: &Message<'_>) -> String {
    match message {
        Message::Handshake { reserved, info_hash, peer_id } => format!(" {reserved:016x} {} {}", hex(*info_hash), hex(*peer_id)),
        Message::Have(index) | Message::Suggest(index) | Message::AllowedFast(index) => format!(" {index}"),
        Message::Request(block) | Message::Cancel(block) | Message::Reject(block) => {
            format!(" {} {} {}", block.index, block.begin, block.length)
        }
        Message::Bitfield(bits) => format!(" {}", bits.len()),
        Message::Piece { index, begin, block } => format!(" {index} {begin} {}", block.len()),
        Message::Port(port) => format!(" {port}"),
        Message::Extended { id, payload, extended: told } => extended(*id, payload, told),
        Message::Unknown { id, payload } => format!(" {id} {}", payload.len()),
        _ => String::new(),
    }
}

/// Adds the lines of items, and returns how many there are.
fn take(items: FeedItems<'_>, out: &mut String) -> Result<usize, Refused> {
    let mut count = 0;
    for item in items {
        let item = item?;
        writeln!(out, "{} {}{}", item.start, item.name(), words(&item.message)).expect("a String takes all");
        count += 1;
    }
    Ok(count)
}

/// The lines of a stream in chunks of this size, and whether it is accepted.
fn show(stream: &[u8], own: &Own, size: usize) -> (String, bool) {
    let (mut feed, mut out) = (Feed::new(own), String::new());
    let mut told = || {
        let mut count = 0;
        for chunk in stream.chunks(size) {
            count += take(feed.push(chunk), &mut out)?;
        }
        Ok(count + take(feed.finish(), &mut out)?)
    };
    let ended: Result<usize, Refused> = told();
    match ended {
        Ok(count) => writeln!(out, "ok messages={} bytes={}", count - 1, feed.start()),
        Err(it) => writeln!(out, "refused message={} at={} {}", it.message, it.at, it.reason),
    }
    .expect("a String takes all");
    (out, ended.is_ok())
}

fn number(name: &str) -> Result<Option<u32>, Box<dyn Error>> {
    Ok(env::var(name).ok().map(|text| text.parse()).transpose()?)
}

fn main() -> Result<(), Box<dyn Error>> {
    let usual = Own::default();
    let own = Own {
        strict: env::var("RULES").is_ok_and(|it| it == "bep"),
        limit: number("LIMIT")?.unwrap_or(usual.limit),
        pieces: number("PIECES")?,
        ..usual
    };
    let (size, mut accepted) = (number("PIECE")?.unwrap_or(65_536) as usize, true);
    let mut streams = env::args().skip(1).map(std::fs::read).collect::<Result<Vec<_>, _>>()?;
    if streams.is_empty() {
        streams.push(Vec::new());
        std::io::stdin().read_to_end(&mut streams[0])?;
    }
    for stream in &streams {
        let (text, is_ok) = show(stream, &own, size);
        std::io::stdout().write_all(text.as_bytes())?;
        accepted &= is_ok;
    }
    std::process::exit(i32::from(!accepted))
}
