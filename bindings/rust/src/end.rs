//! One end of a connection.
use crate::ffi;
use crate::item::{Item, Message};
use crate::own::Own;
use crate::refused::Refused;
use crate::writing::handshake;
use std::error::Error;
use std::fmt;
use std::ptr;

const DONE: u32 = 0;
const BUSY: u32 = 5;
/// What an item has besides its body comes before that, and is at most as long as a handshake.
const HEAD: usize = 68;

/// What an end does with metadata.
#[derive(Clone, Copy, Debug, PartialEq, Eq)]
#[non_exhaustive]
pub enum Role<'a> {
    /// Nothing.
    Watch,
    /// It serves this metadata, which is copied.
    Serve(&'a [u8]),
    /// It fetches the metadata, of at most this many bytes if a number is given.
    Fetch(Option<u64>),
}

/// What an end announces of its pieces after the handshakes (BEP 6).
#[derive(Clone, Copy, Debug, PartialEq, Eq)]
#[non_exhaustive]
pub enum Announce {
    /// Nothing.
    Nothing = 0,
    /// It has all pieces.
    All = 1,
    /// It has no piece.
    None = 2,
}

/// What an end is made with.
#[derive(Clone, Copy, Debug)]
pub struct Config<'a> {
    /// How it receives: with an info hash, and a limit of 32,768 to 1,048,576.
    pub own: Own,
    /// Its peer id.
    pub peer_id: [u8; 20],
    /// What it announces of its pieces.
    pub announce: Announce,
    /// How many blocks of metadata it asks for at once, 1 to 8; any other number is 8.
    pub window: u8,
    /// What it does with metadata.
    pub role: Role<'a>,
}

impl Default for Config<'_> {
    fn default() -> Self {
        let peer_id = *b"-XX0001-rustrustrust";
        Config { own: Own::default(), peer_id, announce: Announce::None, window: 8, role: Role::Watch }
    }
}

/// Why a call for an end did nothing.
#[derive(Clone, Copy, Debug, PartialEq, Eq)]
#[non_exhaustive]
pub enum EndError {
    /// The peer broke a rule. Each later call that receives says so again, until the end is reset.
    Refused(Refused),
    /// An end doesn't say this message.
    NotSaid,
    /// 1 MiB or more waits to be sent.
    Busy,
    /// Out of memory. The same call again goes on.
    Memory,
    /// The limit isn't 32,768 to 1,048,576.
    BadLimit,
    /// There is no info hash.
    NoInfoHash,
    /// The metadata to serve hasn't 1 to 67,108,864 bytes.
    BadSize,
    /// The peer's handshake hasn't come, or what came is refused.
    NotOpen,
    /// The message has a piece index or is a bitfield, and the piece count isn't known.
    NoPieces,
    /// The peer would refuse the message.
    Illegal,
    /// Nothing is fetched, the metadata is there, or it can't have this size.
    NotBegun,
}

impl EndError {
    fn of(status: u32) -> EndError {
        match status {
            4 => EndError::NotSaid,
            BUSY => EndError::Busy,
            8 => EndError::BadLimit,
            9 => EndError::NoInfoHash,
            10 => EndError::BadSize,
            11 => EndError::NotOpen,
            12 => EndError::NoPieces,
            13 => EndError::Illegal,
            14 => EndError::NotBegun,
            _ => EndError::Memory,
        }
    }
}

impl fmt::Display for EndError {
    fn fmt(&self, to: &mut fmt::Formatter<'_>) -> fmt::Result {
        to.write_str(match self {
            EndError::Refused(refused) => return refused.fmt(to),
            EndError::NotSaid => "an end doesn't say this message",
            EndError::Busy => "1 MiB or more waits to be sent",
            EndError::Memory => "out of memory",
            EndError::BadLimit => "the limit isn't 32,768 to 1,048,576",
            EndError::NoInfoHash => "there is no info hash",
            EndError::BadSize => "the metadata hasn't 1 to 67,108,864 bytes",
            EndError::NotOpen => "the connection isn't open",
            EndError::NoPieces => "the piece count isn't known",
            EndError::Illegal => "the peer would refuse it",
            EndError::NotBegun => "no metadata of this size can be fetched now",
        })
    }
}

impl Error for EndError {}

/// What an item of the peer made of an end.
#[derive(Clone, Copy, Debug, PartialEq, Eq)]
#[non_exhaustive]
pub enum Event {
    /// Nothing that the item itself doesn't say.
    Other,
    /// The peer's handshake came.
    Opened,
    /// The peer's extended handshake came.
    Announced {
        /// The id under which the peer wants metadata messages, if it announced one.
        id: Option<u8>,
        /// The size of the metadata, if the peer announced one.
        size: Option<u64>,
        /// Whether metadata of this size is fetched from now on.
        begins: bool,
    },
    /// This block that was asked for came, and others lack.
    Block(u32),
    /// This block that was asked for was rejected.
    Rejected(u32),
    /// The last block came, and the metadata is there.
    Fetched,
    /// The last block came, and the blocks are those of other metadata: the fetch starts over.
    Mismatched,
    /// The peer asked for this block of the metadata, which waits to be sent.
    Served(u32),
    /// The peer asked for this block of the metadata, and a reject waits to be sent.
    Declined(u32),
    /// The peer asked for a block of a piece.
    Requested,
    /// A block of a piece came.
    Piece,
}

impl Event {
    fn of(event: &ffi::Event) -> Event {
        match event.kind {
            1 => Event::Opened,
            2 => Event::Announced {
                id: (event.has_id != 0).then_some(event.id),
                size: (event.has_size != 0).then_some(event.size),
                begins: event.begins != 0,
            },
            3 => Event::Block(event.piece),
            4 => Event::Rejected(event.piece),
            5 => Event::Fetched,
            6 => Event::Mismatched,
            7 => Event::Served(event.piece),
            8 => Event::Declined(event.piece),
            9 => Event::Requested,
            10 => Event::Piece,
            _ => Event::Other,
        }
    }
}

/// What the peer said, and what that made of the end.
#[derive(Clone, Copy, Debug, PartialEq, Eq)]
pub struct Heard<'a> {
    /// What the peer said.
    pub item: Item<'a>,
    /// What that made of the end.
    pub event: Event,
}

/// How far a fetch has come.
#[derive(Clone, Copy, Debug, PartialEq, Eq)]
pub struct Progress {
    /// The size of the metadata in bytes.
    pub size: u64,
    /// How many blocks it has.
    pub blocks: u64,
    /// How many of them are held.
    pub held: u64,
}

/// One end of a connection. It exchanges handshakes, and fetches or serves the torrent's metadata.
///
/// It opens no socket and reads no clock. It stays on the thread that made it.
pub struct End {
    c: ffi::End,
    own: Own,
    /// Room for the head of an item, and its body after that.
    out: Vec<u8>,
}

impl End {
    /// Makes an end on a new connection. Its handshake waits to be sent.
    ///
    /// # Errors
    /// What is wrong in the configuration, or out of memory.
    pub fn new(config: &Config<'_>) -> Result<End, EndError> {
        let (role, most, metadata) = match config.role {
            Role::Watch => (0, 0, &[][..]),
            Role::Serve(metadata) => (1, 0, metadata),
            Role::Fetch(most) => (2, most.unwrap_or(0), &[][..]),
        };
        let peer_id = config.peer_id;
        let (announce, window, own) = (config.announce as u8, config.window, config.own.to_c());
        let raw = ffi::EndConfig { own, most, peer_id, announce, window, role };
        let mut end = End { c: ffi::End { state: ptr::null_mut(), held: 0 }, own: config.own, out: Vec::new() };
        // SAFETY: it holds no end yet; the pointer and the length are those of `metadata`.
        done(unsafe { ffi::bt_end_new(&mut end.c, &raw, metadata.as_ptr(), metadata.len()) })?;
        end.out = vec![0; HEAD + config.own.limit as usize];
        Ok(end)
    }

    /// Begins a new connection, with another peer or the same. What was fetched stays.
    ///
    /// # Errors
    /// Out of memory; nothing has changed.
    pub fn reset(&mut self) -> Result<(), EndError> {
        // SAFETY: it is what the calls left.
        done(unsafe { ffi::bt_end_reset(&mut self.c) })
    }

    /// Takes bytes up to the end of an item, handles it, and returns what was heard; or takes all, if none is whole.
    ///
    /// `bytes` becomes what is left, so that a loop reads on:
    ///
    /// ```
    /// # fn main() -> Result<(), bt::EndError> {
    /// let own = bt::Own { info_hash: Some([7; 20]), ..bt::Own::default() };
    /// let mut end = bt::End::new(&bt::Config { own, ..bt::Config::default() })?;
    /// let mut bytes: &[u8] = &bt::handshake(bt::FAST, [7; 20], *b"-XX0001-000000000000");
    /// while let Some(heard) = end.next(&mut bytes)? {
    ///     assert_eq!((heard.event, heard.item.name()), (bt::Event::Opened, "handshake"));
    /// }
    /// # Ok(())
    /// # }
    /// ```
    ///
    /// # Errors
    /// The peer broke a rule; or busy or out of memory: then the end holds an item, and the next call goes on.
    pub fn next(&mut self, bytes: &mut &[u8]) -> Result<Option<Heard<'_>>, EndError> {
        let (mut heard, (_, out)) = (ffi::Heard::default(), self.out.split_at_mut(HEAD));
        let (given, n) = (bytes.as_ptr(), bytes.len());
        // SAFETY: it is what the calls left; each pointer and the length beside it are those of a slice.
        let answer = unsafe { ffi::bt_end_next(&mut self.c, given, n, &mut heard, out.as_mut_ptr(), out.len()) };
        *bytes = &bytes[heard.used as usize..];
        match answer {
            ffi::ITEM => Ok(Some(self.told(&heard))),
            ffi::MORE => Ok(None),
            ffi::REFUSED => Err(EndError::Refused(Refused::of(&heard.verdict))),
            other => Err(EndError::of(other)),
        }
    }

    /// What was heard, with the item's bytes, which have one spelling, before and at the body.
    fn told(&mut self, heard: &ffi::Heard) -> Heard<'_> {
        let (mut shown, n) = (heard.item, heard.item.body as usize);
        if shown.id == 20 {
            shown.extended_id = match shown.extended.kind {
                ffi::EXT_HANDSHAKE => 0,
                ffi::EXT_RAW => shown.extended_id,
                ffi::DONTHAVE => self.own.donthave_id,
                _ => self.own.metadata_id,
            };
        }
        let head = if shown.id == 257 {
            handshake(shown.reserved, self.own.info_hash.unwrap_or_default(), heard.event.peer_id).to_vec()
        } else {
            head_of(&shown, n)
        };
        let start = HEAD - head.len();
        self.out[start..HEAD].copy_from_slice(&head);
        let data = &self.out[start..HEAD + n];
        Heard { item: Item { start: shown.start, data, message: Message::of(&shown, data) }, event: Event::of(&heard.event) }
    }

    /// Returns a copy of the bytes that wait to be sent. They still wait.
    pub fn outgoing(&mut self) -> Vec<u8> {
        // SAFETY: it is what the calls left.
        let mut out = vec![0; unsafe { ffi::bt_end_waiting(&mut self.c) }];
        // SAFETY: the pointer and the length are those of `out`.
        let n = unsafe { ffi::bt_end_outgoing(&mut self.c, out.as_mut_ptr(), out.len()) };
        out.truncate(n);
        out
    }

    /// Drops the first `n` bytes that wait, since they were sent.
    pub fn sent(&mut self, n: usize) {
        // SAFETY: it is what the calls left.
        unsafe { ffi::bt_end_sent(&mut self.c, n) };
    }

    /// Queues a message. Of the extended messages only `DontHave` is queued.
    ///
    /// # Errors
    /// Why it can't be said; nothing has changed.
    pub fn say(&mut self, message: &Message<'_>) -> Result<(), EndError> {
        let (mut item, mut body) = message.parts();
        if let Message::Extended { extended: crate::item::Extended::DontHave(piece), .. } = message {
            item.extended.kind = ffi::DONTHAVE;
            item.extended.piece = *piece;
            body = &[];
        }
        // SAFETY: it is what the calls left; the pointer and the length are those of `body`.
        done(unsafe { ffi::bt_end_say(&mut self.c, &item, body.as_ptr(), body.len()) })
    }

    /// Returns a copy of the metadata that was fetched, whose SHA-1 is the info hash, once it is there.
    pub fn metadata(&mut self) -> Option<Vec<u8>> {
        // SAFETY: it is what the calls left; with no room nothing is written.
        let n = unsafe { ffi::bt_end_metadata(&mut self.c, ptr::null_mut(), 0) };
        let mut out = vec![0; n];
        // SAFETY: the pointer and the length are those of `out`.
        unsafe { ffi::bt_end_metadata(&mut self.c, out.as_mut_ptr(), n) };
        (n > 0).then_some(out)
    }

    /// Returns how far the fetch has come, if a size is known.
    pub fn progress(&mut self) -> Option<Progress> {
        let mut found = ffi::Progress::default();
        // SAFETY: it is what the calls left.
        let is_known = unsafe { ffi::bt_end_progress(&mut self.c, &mut found) } != 0;
        is_known.then_some(Progress { size: found.size, blocks: found.blocks, held: found.held })
    }

    /// Returns whether no block can come any more on this connection, whatever the peer sends.
    pub fn is_hopeless(&mut self) -> bool {
        // SAFETY: it is what the calls left.
        unsafe { ffi::bt_end_is_hopeless(&mut self.c) != 0 }
    }

    /// Returns how often, on this connection, the blocks that came were those of other metadata.
    pub fn mismatches(&mut self) -> u64 {
        // SAFETY: it is what the calls left.
        unsafe { ffi::bt_end_mismatches(&mut self.c) }
    }

    /// Begins a fetch of this size anew, for a peer that announced a false one.
    ///
    /// The blocks that are held are dropped, and each is asked for again, also if the size is the present one.
    ///
    /// # Errors
    /// Why nothing has changed.
    pub fn begin(&mut self, size: u64) -> Result<(), EndError> {
        // SAFETY: it is what the calls left.
        done(unsafe { ffi::bt_end_begin(&mut self.c, size) })
    }

    /// Requests at most this many blocks at once from now on, 1 to 8; any other number is 8.
    pub fn set_window(&mut self, window: u8) {
        // SAFETY: it is what the calls left.
        unsafe { ffi::bt_end_set_window(&mut self.c, window) };
    }
}

impl fmt::Debug for End {
    fn fmt(&self, to: &mut fmt::Formatter<'_>) -> fmt::Result {
        to.debug_struct("End").field("own", &self.own).finish_non_exhaustive()
    }
}

impl Drop for End {
    fn drop(&mut self) {
        // SAFETY: it is what the calls left.
        unsafe { ffi::bt_end_free(&mut self.c) };
    }
}

fn done(status: u32) -> Result<(), EndError> {
    match status {
        DONE => Ok(()),
        other => Err(EndError::of(other)),
    }
}

/// What a message has before a body of `n` bytes.
fn head_of(item: &ffi::Item, n: usize) -> Vec<u8> {
    if item.id == 256 {
        return vec![0; 4];
    }
    let mut numbers = Vec::with_capacity(12);
    match item.id {
        4 | 13 | 17 => numbers.extend(item.index.to_be_bytes()),
        6 | 8 | 16 => numbers.extend([item.index, item.begin, item.length].map(u32::to_be_bytes).concat()),
        7 => numbers.extend([item.index, item.begin].map(u32::to_be_bytes).concat()),
        9 => numbers.extend(item.port.to_be_bytes()),
        20 => numbers.push(item.extended_id),
        _ => {}
    }
    let mut head = ((1 + numbers.len() + n) as u32).to_be_bytes().to_vec();
    head.push(item.id as u8);
    head.extend(numbers);
    head
}
