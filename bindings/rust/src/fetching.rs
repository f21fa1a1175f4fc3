//! The metadata of a torrent, from a peer.
use crate::end::{Config, End, EndError, Event, Role};
use crate::item::Message;
use crate::own::{Own, EXTENSIONS, FAST};
use crate::refused::Refused;
use std::error::Error;
use std::fmt;
use std::io::{self, ErrorKind, Read, Write};
use std::net::{TcpStream, ToSocketAddrs};
use std::time::{Duration, Instant};

/// The greatest size of metadata.
const MOST: u64 = 67_108_864;

/// Why a peer didn't give the metadata.
#[derive(Debug)]
#[non_exhaustive]
pub enum FetchError {
    /// The connection failed.
    Io(io::Error),
    /// The peer broke a rule.
    Refused(Refused),
    /// The end failed otherwise.
    End(EndError),
    /// The time is over.
    TimedOut,
    /// The peer closed the connection.
    Closed,
    /// The peer has no metadata, or rejected a block of it.
    NoMetadata,
    /// The peer announced metadata of so many bytes, which aren't 1 to `most`.
    BadSize(u64),
    /// The peer sent other metadata.
    OtherMetadata,
}

impl fmt::Display for FetchError {
    fn fmt(&self, to: &mut fmt::Formatter<'_>) -> fmt::Result {
        to.write_str(match self {
            FetchError::Io(error) => return error.fmt(to),
            FetchError::Refused(refused) => return refused.fmt(to),
            FetchError::End(error) => return error.fmt(to),
            FetchError::TimedOut => "the peer didn't give the metadata in time",
            FetchError::Closed => "the peer closed the connection",
            FetchError::NoMetadata => "the peer has no metadata, or rejected a block of it",
            FetchError::BadSize(size) => return write!(to, "the peer announced metadata of {size} bytes, which isn't taken"),
            FetchError::OtherMetadata => "the peer sent other metadata",
        })
    }
}

impl Error for FetchError {}

impl From<io::Error> for FetchError {
    fn from(error: io::Error) -> Self {
        match error.kind() {
            ErrorKind::WouldBlock | ErrorKind::TimedOut => FetchError::TimedOut,
            _ => FetchError::Io(error),
        }
    }
}

impl From<EndError> for FetchError {
    fn from(error: EndError) -> Self {
        match error {
            EndError::Refused(refused) => FetchError::Refused(refused),
            other => FetchError::End(other),
        }
    }
}

/// Fetches the metadata of a torrent from a peer, at most `most` bytes of it. Its SHA-1 is the info hash.
///
/// The peer is an address, or the name of a host with a port, like `"localhost:6881"` or `("localhost", 6881)`. The addresses of a
/// name are tried in turn until one is reached. The time doesn't limit how long the system looks up a name.
///
/// # Errors
/// Why the peer didn't give it within the time.
pub fn fetch(peer: impl ToSocketAddrs, info_hash: [u8; 20], most: Option<u64>, timeout: Duration) -> Result<Vec<u8>, FetchError> {
    let ends = Instant::now() + timeout;
    let own = Own { reserved: FAST | EXTENSIONS, info_hash: Some(info_hash), ..Own::default() };
    let mut end = End::new(&Config { own, role: Role::Fetch(most), ..Config::default() })?;
    let most = most.map_or(MOST, |most| most.min(MOST));
    let (mut stream, mut buffer) = (connected(peer, ends)?, vec![0; 65_536]);
    loop {
        stream.set_read_timeout(Some(left(ends)))?;
        stream.set_write_timeout(Some(left(ends)))?;
        let waiting = end.outgoing();
        stream.write_all(&waiting)?;
        end.sent(waiting.len());
        let n = stream.read(&mut buffer)?;
        if n == 0 {
            return Err(FetchError::Closed);
        }
        if let Some(metadata) = handle(&mut end, &buffer[..n], most)? {
            return Ok(metadata);
        }
        if end.is_hopeless() {
            return Err(FetchError::NoMetadata);
        }
    }
}

/// How long it is until then, and at least a millisecond.
fn left(ends: Instant) -> Duration {
    ends.saturating_duration_since(Instant::now()).max(Duration::from_millis(1))
}

/// Connects to the first address that is reached.
fn connected(peer: impl ToSocketAddrs, ends: Instant) -> io::Result<TcpStream> {
    let mut last = io::Error::new(ErrorKind::InvalidInput, "the peer has no address");
    for address in peer.to_socket_addrs()? {
        match TcpStream::connect_timeout(&address, left(ends)) {
            Ok(stream) => return Ok(stream),
            Err(error) => last = error,
        }
    }
    Err(last)
}

/// Handles what was received, and returns the metadata once it is there.
fn handle(end: &mut End, mut bytes: &[u8], most: u64) -> Result<Option<Vec<u8>>, FetchError> {
    while let Some(heard) = end.next(&mut bytes)? {
        match (heard.event, heard.item.message) {
            // (clients of this kind answer one request at a time: a second one makes them stop)
            (Event::Opened, Message::Handshake { peer_id, .. }) if peer_id.starts_with(b"-lt") => end.set_window(1),
            (Event::Announced { size: Some(size), .. }, _) if size == 0 || size > most => return Err(FetchError::BadSize(size)),
            (Event::Fetched, _) => return Ok(end.metadata()),
            (Event::Mismatched, _) => return Err(FetchError::OtherMetadata),
            _ => {}
        }
    }
    Ok(None)
}
