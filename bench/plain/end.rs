//! One end of a connection, which serves or fetches metadata (BEP 3, 6, 9, 10): for the benchmark of ends.
//!
//! It judges what `bt_end` judges, by the rules `bep`, and answers as it does. A message that lies whole in the bytes
//! that come is handled there; only what is cut off is kept. Of the peer's names it keeps the id of `ut_metadata` alone.
use crate::judging::{Judged, Kind, Receiver, Seen};
use crate::sha1::sha1;

pub const BLOCK: usize = 16_384;

/// From how many waiting bytes on an end handles nothing more.
pub const HIGH_WATER: usize = 1 << 20;

/// The reserved bits of the Fast Extension and of the Extension Protocol.
pub const RESERVED: u64 = 0x10_0004;

/// The id under which an end wants metadata messages.
pub const END_ID: u8 = 3;

/// How many blocks are asked for at once.
const WINDOW: usize = 8;

const MAX_METADATA: u64 = 1 << 26;

#[derive(Clone, Copy, PartialEq)]
enum Status {
    Lacking,
    Asked,
    Rejected,
    Held,
}

/// Metadata that is put together from blocks.
struct Assembly {
    bytes: Vec<u8>,
    states: Vec<Status>,
    /// No block before this one is lacking.
    next: usize,
    asked: usize,
    held: usize,
}

impl Assembly {
    fn new(size: usize) -> Assembly {
        Assembly {
            bytes: vec![0; size],
            states: vec![Status::Lacking; size.div_ceil(BLOCK)],
            next: 0,
            asked: 0,
            held: 0,
        }
    }

    /// The next block to ask for, which is asked from then on.
    fn ask(&mut self) -> Option<u64> {
        while self.asked < WINDOW && self.next < self.states.len() {
            let piece = self.next;
            self.next += 1;
            if self.states[piece] == Status::Lacking {
                self.states[piece] = Status::Asked;
                self.asked += 1;
                return Some(piece as u64);
            }
        }
        None
    }

    /// Takes a block that was asked for. Its length was judged by the size that the message tells.
    fn take(&mut self, piece: u64, total: u64, block: &[u8]) {
        let piece = piece as usize;
        if self.states.get(piece) != Some(&Status::Asked) || total != self.bytes.len() as u64 {
            return;
        }
        self.bytes[BLOCK * piece..][..block.len()].copy_from_slice(block);
        self.states[piece] = Status::Held;
        self.asked -= 1;
        self.held += 1;
    }

    fn reject(&mut self, piece: u64) {
        if let Some(state) = self.states.get_mut(piece as usize)
            && *state == Status::Asked
        {
            *state = Status::Rejected;
            self.asked -= 1;
        }
    }

    fn is_whole(&self) -> bool {
        self.held == self.states.len()
    }

    fn start_over(&mut self) {
        self.states.fill(Status::Lacking);
        (self.next, self.asked, self.held) = (0, 0, 0);
    }
}

/// What an end does with metadata.
pub enum Role {
    Watch,
    Serve(Vec<u8>),
    Fetch,
}

enum Part {
    Watching,
    Serving(Vec<u8>),
    Awaiting,
    Fetching(Assembly),
    Fetched(Vec<u8>),
}

pub struct End {
    receiver: Receiver,
    info_hash: [u8; 20],
    is_open: bool,
    /// The id under which the peer wants metadata messages.
    peer_id: Option<u8>,
    /// The start of an item, of which the rest hasn't come.
    held: Vec<u8>,
    outbox: Vec<u8>,
    /// How many bytes at the front of the outbox were sent.
    sent: usize,
    part: Part,
}

impl End {
    pub fn new(info_hash: [u8; 20], limit: u32, role: Role) -> End {
        let mut outbox = Vec::new();
        put_handshake(&mut outbox, &info_hash, b"-BT0001-EEEEEEEEEEEE");
        End {
            receiver: Receiver::of_end(RESERVED, info_hash, END_ID, limit),
            info_hash,
            is_open: false,
            peer_id: None,
            held: Vec::new(),
            outbox,
            sent: 0,
            part: match role {
                Role::Watch => Part::Watching,
                Role::Serve(metadata) => Part::Serving(metadata),
                Role::Fetch => Part::Awaiting,
            },
        }
    }

    /// Takes bytes up to the end of the present item, handles it if it is whole, and says how many were taken: none
    /// while too much waits to be sent.
    pub fn receive(&mut self, bytes: &[u8]) -> Judged<usize> {
        if self.outgoing().len() >= HIGH_WATER {
            return Ok(0);
        }
        if self.held.is_empty() {
            if let Some(size) = self.size_of(bytes)?
                && let Some(item) = bytes.get(..size)
            {
                self.handle(item)?;
                return Ok(size);
            }
        }
        self.keep(bytes)
    }

    /// Takes bytes of an item that doesn't lie whole in them.
    #[cold]
    fn keep(&mut self, bytes: &[u8]) -> Judged<usize> {
        let mut held = std::mem::take(&mut self.held);
        let mut taken = 0;
        loop {
            let known = self.size_of(&held)?;
            let wanted = known.unwrap_or(held.len() + 1) - held.len();
            let count = wanted.min(bytes.len() - taken);
            held.extend_from_slice(&bytes[taken..taken + count]);
            taken += count;
            if count < wanted || known.is_some() {
                break;
            }
        }
        if self.size_of(&held)? == Some(held.len()) {
            self.handle(&held)?;
            held.clear();
        }
        self.held = held;
        Ok(taken)
    }

    /// How many bytes the item has that begins so, once that is known.
    fn size_of(&self, bytes: &[u8]) -> Judged<Option<usize>> {
        if !self.is_open {
            return Ok(Some(68));
        }
        let Some(four) = bytes.first_chunk() else {
            return Ok(None);
        };
        let length = u32::from_be_bytes(*four);
        if length > self.receiver.limit {
            return Err((0, crate::judging::Reason::TooLong));
        }
        if length > 0 {
            let Some(id) = bytes.get(4) else {
                return Ok(None);
            };
            self.receiver.header(length, *id)?;
        }
        Ok(Some(4 + length as usize))
    }

    fn handle(&mut self, item: &[u8]) -> Judged<()> {
        if !self.is_open {
            self.receiver.handshake(item)?;
            self.is_open = true;
            self.greet();
        } else if item.len() > 4 {
            match self.receiver.message(item)? {
                Seen::Raw => {}
                Seen::Handshake(_, _, fields) => {
                    if let Some(Some(id)) = fields.ut_metadata
                        && let Ok(id) = u8::try_from(id)
                    {
                        self.peer_id = Some(id).filter(|id| *id > 0);
                    }
                    self.learn(fields.metadata_size.flatten());
                    self.ask();
                }
                Seen::Metadata(dict, _, kind) => self.metadata(kind, &item[6 + dict as usize..]),
            }
        }
        Ok(())
    }

    /// Queues the extended handshake.
    fn greet(&mut self) {
        if !self.receiver.ext {
            return;
        }
        let size = match &self.part {
            Part::Serving(metadata) => Some(metadata.len()),
            _ => None,
        };
        let outbox = self.room();
        put_extended_handshake(outbox, END_ID, size);
    }

    fn learn(&mut self, size: Option<i64>) {
        if let (Part::Awaiting, Some(size)) = (&self.part, size)
            && let Ok(size @ 1..=MAX_METADATA) = u64::try_from(size)
        {
            self.part = Part::Fetching(Assembly::new(size as usize));
        }
    }

    fn ask(&mut self) {
        let (Part::Fetching(assembly), Some(id)) = (&mut self.part, self.peer_id) else {
            return;
        };
        while let Some(piece) = assembly.ask() {
            put_message(&mut self.outbox, id, 0, piece, None, &[]);
        }
    }

    fn metadata(&mut self, kind: Kind, block: &[u8]) {
        match kind {
            Kind::Request(piece) => self.answer(piece),
            Kind::Data(piece, total) => {
                if let Part::Fetching(assembly) = &mut self.part {
                    assembly.take(piece, total, block);
                    self.conclude();
                    self.ask();
                }
            }
            Kind::Reject(piece) => {
                if let Part::Fetching(assembly) = &mut self.part {
                    assembly.reject(piece);
                    self.ask();
                }
            }
            Kind::Other | Kind::Malformed => {}
        }
    }

    /// The metadata is there when each block is held and its SHA-1 is right.
    fn conclude(&mut self) {
        if let Part::Fetching(assembly) = &mut self.part
            && assembly.is_whole()
        {
            if sha1(&assembly.bytes) == self.info_hash {
                self.part = Part::Fetched(std::mem::take(&mut assembly.bytes));
            } else {
                assembly.start_over();
            }
        }
    }

    fn answer(&mut self, piece: u64) {
        let Some(id) = self.peer_id else {
            return;
        };
        self.room();
        let at = BLOCK * piece as usize;
        match &self.part {
            Part::Serving(metadata) if at < metadata.len() => {
                let block = &metadata[at..metadata.len().min(at + BLOCK)];
                let total = Some(metadata.len());
                put_message(&mut self.outbox, id, 1, piece, total, block);
            }
            _ => put_message(&mut self.outbox, id, 2, piece, None, &[]),
        }
    }

    /// The outbox, without what was sent where that is most of it.
    fn room(&mut self) -> &mut Vec<u8> {
        if self.sent > self.outbox.len() - self.sent {
            self.outbox.drain(..self.sent);
            self.sent = 0;
        }
        &mut self.outbox
    }

    pub fn outgoing(&self) -> &[u8] {
        &self.outbox[self.sent..]
    }

    /// Drops the first bytes of those that are to be sent.
    pub fn sent(&mut self, count: usize) {
        self.sent += count;
        if self.sent == self.outbox.len() {
            self.outbox.clear();
            self.sent = 0;
        }
    }

    /// The metadata that was fetched.
    pub fn fetched(&self) -> Option<&[u8]> {
        match &self.part {
            Part::Fetched(metadata) => Some(metadata),
            _ => None,
        }
    }
}

pub fn put_handshake(out: &mut Vec<u8>, info_hash: &[u8; 20], peer_id: &[u8; 20]) {
    out.extend_from_slice(b"\x13BitTorrent protocol");
    out.extend_from_slice(&RESERVED.to_be_bytes());
    out.extend_from_slice(info_hash);
    out.extend_from_slice(peer_id);
}

/// Appends a number in decimal digits.
fn put_number(out: &mut Vec<u8>, mut number: u64) {
    let mut digits = [0; 20];
    let mut start = 20;
    loop {
        start -= 1;
        digits[start] = b'0' + (number % 10) as u8;
        number /= 10;
        if number == 0 {
            break;
        }
    }
    out.extend_from_slice(&digits[start..]);
}

/// Appends an extended message, whose payload the closure appends.
#[inline(always)]
fn put_extended(out: &mut Vec<u8>, id: u8, put: impl FnOnce(&mut Vec<u8>)) {
    let start = out.len();
    out.extend_from_slice(&[0, 0, 0, 0, 20, id]);
    put(out);
    let length = (out.len() - start - 4) as u32;
    out[start..start + 4].copy_from_slice(&length.to_be_bytes());
}

pub fn put_extended_handshake(out: &mut Vec<u8>, id: u8, size: Option<usize>) {
    put_extended(out, 0, |out| {
        out.extend_from_slice(b"d1:md11:ut_metadatai");
        put_number(out, id.into());
        out.extend_from_slice(b"ee");
        if let Some(size) = size {
            out.extend_from_slice(b"13:metadata_sizei");
            put_number(out, size as u64);
            out.push(b'e');
        }
        out.push(b'e');
    });
}

/// Appends a metadata message: a request (0), a block (1) or a reject (2).
pub fn put_message(
    out: &mut Vec<u8>,
    id: u8,
    msg_type: u8,
    piece: u64,
    total: Option<usize>,
    block: &[u8],
) {
    put_extended(out, id, |out| {
        out.extend_from_slice(b"d8:msg_typei");
        out.push(b'0' + msg_type);
        out.extend_from_slice(b"e5:piecei");
        put_number(out, piece);
        if let Some(total) = total {
            out.extend_from_slice(b"e10:total_sizei");
            put_number(out, total as u64);
        }
        out.extend_from_slice(b"ee");
        out.extend_from_slice(block);
    });
}
