//! Drives ends over memory, as `bt_bench` does: the jobs of `bench/run_ends`.
use crate::end::{
    BLOCK, END_ID, End, HIGH_WATER, Role, put_extended_handshake, put_handshake, put_message,
};
use crate::judging::Judged;
use crate::sha1::sha1;

/// The id under which the peer wants metadata messages.
const PEER_ID: u8 = 7;

const LIMIT: u32 = 262_144;

/// From how many waiting bytes on they are taken from an end.
const PORTION: usize = 65_536;

pub const JOBS: [&str; 6] = ["serve", "fetch", "pair", "hash", "digest", "ends"];

fn metadata(blocks: usize) -> Vec<u8> {
    let count = (blocks * BLOCK) as u32;
    (0..count)
        .map(|k| (k.wrapping_mul(2_654_435_761) >> 24) as u8)
        .collect()
}

/// What the peer says first.
fn greeting(info_hash: &[u8; 20], size: Option<usize>) -> Vec<u8> {
    let mut bytes = Vec::new();
    put_handshake(&mut bytes, info_hash, b"-PE0001-PPPPPPPPPPPP");
    put_extended_handshake(&mut bytes, PEER_ID, size);
    bytes
}

fn requests(count: usize) -> Vec<u8> {
    let mut bytes = Vec::new();
    for piece in 0..count as u64 {
        put_message(&mut bytes, END_ID, 0, piece, None, &[]);
    }
    bytes
}

fn blocks(metadata: &[u8]) -> Vec<u8> {
    let mut bytes = Vec::new();
    for (piece, block) in metadata.chunks(BLOCK).enumerate() {
        let total = Some(metadata.len());
        put_message(&mut bytes, END_ID, 1, piece as u64, total, block);
    }
    bytes
}

/// How many items the ends handled, and how many bytes they sent.
#[derive(Default)]
struct Tally {
    handled: u64,
    sent: u64,
}

fn step(end: &mut End, bytes: &[u8], tally: &mut Tally) -> Judged<usize> {
    let taken = end.receive(bytes)?;
    assert!(taken > 0, "an end takes nothing more");
    tally.handled += 1;
    Ok(taken)
}

fn empty(end: &mut End, tally: &mut Tally) {
    let waiting = end.outgoing().len();
    end.sent(waiting);
    tally.sent += waiting as u64;
}

/// Brings all the bytes to an end, and takes what it sends as it fills.
fn bring(end: &mut End, mut bytes: &[u8], tally: &mut Tally) -> Judged<()> {
    while !bytes.is_empty() {
        let taken = step(end, bytes, tally)?;
        bytes = &bytes[taken..];
        if end.outgoing().len() >= PORTION {
            empty(end, tally);
        }
    }
    Ok(())
}

/// Brings all that one end sends to the other.
fn deliver(from: &mut End, to: &mut End, tally: &mut Tally) -> Judged<()> {
    let mut bytes = from.outgoing();
    while !bytes.is_empty() {
        let taken = step(to, bytes, tally)?;
        bytes = &bytes[taken..];
    }
    empty(from, tally);
    Ok(())
}

fn serve(count: usize, rounds: usize) -> Judged<String> {
    let served = metadata(count);
    let hash = sha1(&served);
    let mut end = End::new(hash, LIMIT, Role::Serve(served));
    let mut tally = Tally::default();
    bring(&mut end, &greeting(&hash, None), &mut tally)?;
    let all = requests(count);
    for _ in 0..rounds / count {
        bring(&mut end, &all, &mut tally)?;
    }
    bring(&mut end, &requests(rounds % count), &mut tally)?;
    empty(&mut end, &mut tally);
    Ok(format!("items={} bytes={}", tally.handled, tally.sent))
}

fn fetch(count: usize, rounds: usize) -> Judged<String> {
    let served = metadata(count);
    let hash = sha1(&served);
    let greeting = greeting(&hash, Some(served.len()));
    let data = blocks(&served);
    let (mut fetched, mut bytes, mut length) = (0, 0, 0);
    for _ in 0..rounds {
        let mut end = End::new(hash, LIMIT, Role::Fetch);
        let mut tally = Tally::default();
        bring(&mut end, &greeting, &mut tally)?;
        bring(&mut end, &data, &mut tally)?;
        fetched += count;
        bytes += data.len();
        length = end.fetched().map_or(0, <[u8]>::len);
    }
    Ok(format!("blocks={fetched} bytes={bytes} length={length}"))
}

fn new_pair(served: &[u8], hash: [u8; 20]) -> (End, End) {
    let left = End::new(hash, LIMIT, Role::Serve(served.to_vec()));
    (left, End::new(hash, LIMIT, Role::Fetch))
}

fn pair(count: usize, rounds: usize) -> Judged<String> {
    let served = metadata(count);
    let hash = sha1(&served);
    let (mut fetched, mut bytes, mut length) = (0, 0, 0);
    for _ in 0..rounds {
        let (mut left, mut right) = new_pair(&served, hash);
        let mut tally = Tally::default();
        while right.fetched().is_none() {
            deliver(&mut left, &mut right, &mut tally)?;
            deliver(&mut right, &mut left, &mut tally)?;
        }
        fetched += count;
        bytes += tally.sent;
        length = right.fetched().map_or(0, <[u8]>::len);
    }
    Ok(format!("blocks={fetched} bytes={bytes} length={length}"))
}

fn hex(bytes: &[u8]) -> String {
    bytes.iter().map(|byte| format!("{byte:02x}")).collect()
}

fn digest(count: usize) -> Judged<String> {
    let served = metadata(count);
    let (mut left, mut right) = new_pair(&served, sha1(&served));
    let mut tally = Tally::default();
    let (mut from_left, mut from_right) = (Vec::new(), Vec::new());
    for _ in 0..count + 4 {
        from_left.extend_from_slice(left.outgoing());
        deliver(&mut left, &mut right, &mut tally)?;
        from_right.extend_from_slice(right.outgoing());
        deliver(&mut right, &mut left, &mut tally)?;
    }
    let (left, right) = (sha1(&from_left), sha1(&from_right));
    Ok(format!("left={} right={}", hex(&left), hex(&right)))
}

fn hash(count: usize, rounds: usize) -> String {
    let served = metadata(count);
    let mut digest = sha1(&served);
    for _ in 0..rounds {
        digest = sha1(std::hint::black_box(&served));
    }
    hex(&digest)
}

fn ends(count: usize, state: &str, limit: u32) -> Judged<String> {
    let served = metadata(1);
    let hash = sha1(&served);
    let greeting = greeting(&hash, (state == "fetching").then_some(1 << 26));
    let request = requests(1);
    let mut ends = Vec::new();
    for _ in 0..count {
        let role = match state {
            "serving" | "busy" | "drained" => Role::Serve(served.clone()),
            "fetching" => Role::Fetch,
            _ => Role::Watch,
        };
        let mut end = End::new(hash, limit, role);
        let mut tally = Tally::default();
        if state != "new" {
            bring(&mut end, &greeting, &mut tally)?;
            empty(&mut end, &mut tally);
        }
        while ["busy", "drained"].contains(&state) && end.outgoing().len() < HIGH_WATER {
            step(&mut end, &request, &mut tally)?;
        }
        if state == "drained" {
            empty(&mut end, &mut tally);
        }
        ends.push(end);
    }
    Ok(format!("ends={}", ends.len()))
}

/// The line that a job prints; None where the words are no job.
pub fn run(words: &[String]) -> Option<Judged<String>> {
    let number = |k: usize| words.get(k)?.parse::<u32>().ok();
    let first = number(1)? as usize;
    let blocks = Some(first).filter(|count| (1..=4_096).contains(count));
    Some(match words[0].as_str() {
        "serve" => serve(blocks?, number(2)? as usize),
        "fetch" => fetch(blocks?, number(2)? as usize),
        "pair" => pair(blocks?, number(2)? as usize),
        "hash" => Ok(hash(blocks?, number(2)? as usize)),
        "digest" => digest(blocks?),
        _ => {
            let state = words.get(2).map_or("open", String::as_str);
            let known = ["new", "open", "serving", "busy", "drained", "fetching"];
            let limit = words.get(3).map_or(Some(LIMIT), |_| number(3))?;
            ends(first, known.contains(&state).then_some(state)?, limit)
        }
    })
}
