//! Streams read: whole, in chunks, or of a socket or a file.
use crate::ffi;
use crate::item::{Item, Message};
use crate::own::Own;
use crate::refused::Refused;
use std::error::Error;
use std::fmt;
use std::io::{self, ErrorKind, Read};

/// How many bytes a [`Stream`] asks its source for.
const CHUNK: usize = 65_536;

/// How far a stream is read.
#[derive(Clone, Copy, Default)]
struct State {
    reader: ffi::Reader,
    count: u64,
}

impl State {
    fn new(own: &Own) -> State {
        let mut state = State::default();
        // SAFETY: both are whole structs.
        unsafe { ffi::bt_reader_init(&mut state.reader, &own.to_c()) };
        state
    }

    /// Reads the struct of the item at the front of the bytes, if it is whole.
    fn step(&mut self, bytes: &[u8], ended: bool, item: &mut ffi::Item) -> Option<Result<(), Refused>> {
        let call = if ended { ffi::bt_reader_finish } else { ffi::bt_reader_next };
        // SAFETY: the pointer and the length are those of `bytes`.
        match unsafe { call(&mut self.reader, bytes.as_ptr(), bytes.len(), item) } {
            ffi::ITEM => {
                self.count += 1;
                Some(Ok(()))
            }
            ffi::REFUSED => Some(Err(Refused::by(item, self.count))),
            _ => None,
        }
    }

    /// Reads the item at the front of the bytes, if it is whole.
    fn next<'a>(&mut self, bytes: &'a [u8], ended: bool) -> Option<Result<Item<'a>, Refused>> {
        let mut item = ffi::Item::default();
        match self.step(bytes, ended, &mut item)? {
            Ok(()) => Some(Ok(shown(&item, bytes))),
            Err(refused) => Some(Err(refused)),
        }
    }
}

/// The item at the front of the bytes, by its struct.
fn shown<'a>(item: &ffi::Item, bytes: &'a [u8]) -> Item<'a> {
    let data = &bytes[..item.size as usize];
    Item { start: item.start, data, message: Message::of(item, data) }
}

/// The items of a whole stream. It ends after a refusal.
pub struct Items<'a> {
    state: State,
    bytes: &'a [u8],
    over: bool,
}

/// Returns an iterator over the items of a whole stream, which borrow its bytes.
///
/// ```
/// let mut bytes = bt::handshake(bt::FAST, [7; 20], *b"-XX0001-000000000000").to_vec();
/// bytes.extend(b"\0\0\0\x05\x04\0\0\0\x09\0\0");
/// let mut items = bt::read(&bytes, &bt::Own::default());
/// assert_eq!(items.next().unwrap()?.name(), "handshake");
/// assert_eq!(items.next().unwrap()?.message, bt::Message::Have(9));
/// assert_eq!(items.next().unwrap().unwrap_err().to_string(), "message 2 refused at byte 79: EndInside");
/// # Ok::<(), bt::Refused>(())
/// ```
pub fn read<'a>(bytes: &'a [u8], own: &Own) -> Items<'a> {
    Items { state: State::new(own), bytes, over: false }
}

impl fmt::Debug for Items<'_> {
    fn fmt(&self, to: &mut fmt::Formatter<'_>) -> fmt::Result {
        let (start, left) = (self.state.reader.start, self.bytes.len());
        to.debug_struct("Items").field("start", &start).field("left", &left).finish_non_exhaustive()
    }
}

impl<'a> Iterator for Items<'a> {
    type Item = Result<Item<'a>, Refused>;

    fn next(&mut self) -> Option<Self::Item> {
        if self.over {
            return None;
        }
        let found = self.state.next(self.bytes, true);
        match &found {
            Some(Ok(item)) => self.bytes = &self.bytes[item.data.len()..],
            _ => self.over = true,
        }
        found
    }
}

impl std::iter::FusedIterator for Items<'_> {}

/// Reads a stream that comes in chunks of any size.
///
/// What isn't taken from an iterator isn't lost: the next one begins with it. A refusal comes again in each later iterator.
pub struct Feed {
    state: State,
    bytes: Vec<u8>,
    at: usize,
}

impl fmt::Debug for Feed {
    fn fmt(&self, to: &mut fmt::Formatter<'_>) -> fmt::Result {
        let left = self.bytes.len() - self.at;
        to.debug_struct("Feed").field("start", &self.start()).field("left", &left).finish_non_exhaustive()
    }
}

impl Feed {
    /// Makes a feed at the start of a stream.
    pub fn new(own: &Own) -> Feed {
        Feed { state: State::new(own), bytes: Vec::new(), at: 0 }
    }

    /// Returns the offset of the next item in the stream.
    pub fn start(&self) -> u64 {
        self.state.reader.start
    }

    /// Takes all bytes of the chunk, and returns an iterator over the items that are whole.
    pub fn push(&mut self, chunk: &[u8]) -> FeedItems<'_> {
        self.bytes.drain(..self.at);
        self.at = 0;
        self.bytes.extend_from_slice(chunk);
        self.items(false)
    }

    /// Ends the stream, and returns an iterator over the items that are left. It refuses a stream that ends inside one.
    pub fn finish(&mut self) -> FeedItems<'_> {
        self.items(true)
    }

    fn items(&mut self, ended: bool) -> FeedItems<'_> {
        FeedItems { state: &mut self.state, bytes: &self.bytes, at: &mut self.at, ended, over: false }
    }
}

/// Items of a [`Feed`], with their bytes in its buffer. It ends after a refusal.
pub struct FeedItems<'a> {
    state: &'a mut State,
    bytes: &'a [u8],
    at: &'a mut usize,
    ended: bool,
    over: bool,
}

impl fmt::Debug for FeedItems<'_> {
    fn fmt(&self, to: &mut fmt::Formatter<'_>) -> fmt::Result {
        let (start, left) = (self.state.reader.start, self.bytes.len() - *self.at);
        to.debug_struct("FeedItems").field("start", &start).field("left", &left).finish_non_exhaustive()
    }
}

impl<'a> Iterator for FeedItems<'a> {
    type Item = Result<Item<'a>, Refused>;

    fn next(&mut self) -> Option<Self::Item> {
        if self.over {
            return None;
        }
        let found = self.state.next(&self.bytes[*self.at..], self.ended);
        match &found {
            Some(Ok(item)) => *self.at += item.data.len(),
            _ => self.over = true,
        }
        found
    }
}

/// Why a [`Stream`] gives no item.
#[derive(Debug)]
#[non_exhaustive]
pub enum StreamError {
    /// The source failed.
    Io(io::Error),
    /// The stream breaks a rule.
    Refused(Refused),
}

impl fmt::Display for StreamError {
    fn fmt(&self, to: &mut fmt::Formatter<'_>) -> fmt::Result {
        match self {
            StreamError::Io(error) => error.fmt(to),
            StreamError::Refused(refused) => refused.fmt(to),
        }
    }
}

impl Error for StreamError {}

impl From<io::Error> for StreamError {
    fn from(error: io::Error) -> Self {
        StreamError::Io(error)
    }
}

impl From<Refused> for StreamError {
    fn from(refused: Refused) -> Self {
        StreamError::Refused(refused)
    }
}

/// The items of a socket, a file or another source of bytes. [`stream`] makes it.
pub struct Stream<R> {
    source: R,
    state: State,
    /// What came and isn't taken yet is `buffer[at..end]`.
    buffer: Vec<u8>,
    at: usize,
    end: usize,
    ended: bool,
}

/// Returns the items of a source of bytes, each as soon as its bytes are there.
///
/// It reads up to 65,536 bytes at a time, so the source needs no buffer of its own.
///
/// ```
/// # let mut bytes = bt::handshake(bt::FAST, [7; 20], *b"-XX0001-000000000000").to_vec();
/// # bytes.extend(b"\0\0\0\x05\x04\0\0\0\x09");
/// # let socket = &bytes[..];
/// let mut stream = bt::stream(socket, &bt::Own::default());
/// while let Some(item) = stream.next()? {
///     println!("{} {}", item.start, item.name());
/// }
/// # assert_eq!(stream.start(), 77);
/// # Ok::<(), bt::StreamError>(())
/// ```
pub fn stream<R: Read>(source: R, own: &Own) -> Stream<R> {
    Stream { source, state: State::new(own), buffer: Vec::new(), at: 0, end: 0, ended: false }
}

impl<R> fmt::Debug for Stream<R> {
    fn fmt(&self, to: &mut fmt::Formatter<'_>) -> fmt::Result {
        let left = self.end - self.at;
        to.debug_struct("Stream").field("start", &self.start()).field("left", &left).finish_non_exhaustive()
    }
}

impl<R> Stream<R> {
    /// Returns the offset of the next item in the stream.
    pub fn start(&self) -> u64 {
        self.state.reader.start
    }
}

impl<R: Read> Stream<R> {
    /// Returns the next item, which borrows the stream; or none, if the source is at its end.
    ///
    /// # Errors
    /// The source failed, and the next call goes on; or the stream breaks a rule, and each later call says so again.
    #[allow(clippy::should_implement_trait)] // an iterator's items can't borrow it
    pub fn next(&mut self) -> Result<Option<Item<'_>>, StreamError> {
        let mut item = ffi::Item::default();
        loop {
            match self.state.step(&self.buffer[self.at..self.end], self.ended, &mut item) {
                Some(found) => {
                    found?;
                    let from = self.at;
                    self.at += item.size as usize;
                    return Ok(Some(shown(&item, &self.buffer[from..self.at])));
                }
                None if self.ended => return Ok(None),
                None => self.fill()?,
            }
        }
    }

    /// Reads some bytes, or the source's end.
    fn fill(&mut self) -> io::Result<()> {
        if self.at > 0 {
            self.buffer.copy_within(self.at..self.end, 0);
            (self.at, self.end) = (0, self.end - self.at);
        }
        if self.buffer.len() < self.end + CHUNK {
            self.buffer.resize(self.end + CHUNK, 0);
        }
        let n = loop {
            match self.source.read(&mut self.buffer[self.end..]) {
                Err(error) if error.kind() == ErrorKind::Interrupted => {}
                other => break other?,
            }
        };
        self.end += n;
        self.ended = n == 0;
        Ok(())
    }
}

/// Judges a whole stream, and returns how many messages it has.
///
/// # Errors
/// The refusal.
pub fn check(bytes: &[u8], own: &Own) -> Result<u64, Refused> {
    let mut verdict = ffi::Verdict::default();
    // SAFETY: the pointer and the length are those of `bytes`.
    match unsafe { ffi::bt_check(&own.to_c(), bytes.as_ptr(), bytes.len(), &mut verdict) } {
        ffi::END => Ok(verdict.message),
        _ => Err(Refused::of(&verdict)),
    }
}
