//! The BitTorrent peer wire (BEP 3, 5, 6, 9 and 10), over the proved library `libbt.a`.
//!
//! ```
//! let mut bytes = bt::handshake(bt::FAST, [7; 20], *b"-XX0001-000000000000").to_vec();
//! bytes.extend(b"\0\0\0\x05\x04\0\0\0\x09");          // a have: its length, its id, and the number of the piece
//!
//! let mut have = Vec::new();
//! for item in bt::read(&bytes, &bt::Own::default()) {
//!     let item = item?;                                // Err if a rule is broken, with the offset and the rule
//!     println!("{} {}", item.start, item.name());      // 0 handshake, 68 have
//!     if let bt::Message::Have(index) = item.message {
//!         have.push(index);
//!     }
//! }
//! assert_eq!(have, [9]);
//! # Ok::<(), bt::Refused>(())
//! ```
//!
//! [`read`] reads a whole stream, [`stream`] a socket or a file, and [`Feed`] a stream that comes in chunks; each refuses what the
//! standards don't allow. [`Own`] is the receiver, by which a stream is judged. [`Writer`] writes messages, each judged as the peer
//! judges it. [`End`] is one end of a connection, and [`fetch`] fetches a torrent's metadata from a peer. What is here only calls the
//! library: it is tested, and not proved itself. The enums may get more variants, so a `match` of one needs an arm `_`.
#![warn(missing_docs)]

mod end;
mod fetching;
mod ffi;
mod item;
mod own;
mod reading;
mod refused;
mod writing;

#[cfg(test)]
mod names;

pub use end::{Announce, Config, End, EndError, Event, Heard, Progress, Role};
pub use fetching::{fetch, FetchError};
pub use item::{Block, Extended, Item, Message};
pub use own::{Own, DHT, EXTENSIONS, FAST};
pub use reading::{check, read, stream, Feed, FeedItems, Items, Stream, StreamError};
pub use refused::{Reason, Refused};
pub use writing::{handshake, WriteError, Writer};
