//! Messages written as the peer may get them.
use crate::ffi;
use crate::item::{Extended, Item, Message};
use crate::own::Own;
use crate::refused::Refused;
use std::error::Error;
use std::fmt;

/// What a message has besides its body, and a dictionary that the library writes.
const HEAD: usize = 17;
const DICT: usize = 160;

/// Why a message isn't written.
#[derive(Clone, Copy, Debug, PartialEq, Eq)]
#[non_exhaustive]
pub enum WriteError {
    /// The peer would refuse it.
    Refused(Refused),
    /// The peer announced no id for `ut_metadata`.
    NoMetadataId,
    /// The total size of the metadata isn't 1 to 2^63 - 1.
    BadTotalSize,
    /// No message has this form: a handshake, or a length of 2^32 bytes or more.
    NoMessage,
}

impl fmt::Display for WriteError {
    fn fmt(&self, to: &mut fmt::Formatter<'_>) -> fmt::Result {
        match self {
            WriteError::Refused(refused) => write!(to, "the peer would refuse it: {refused}"),
            WriteError::NoMetadataId => to.write_str("the peer announced no id for ut_metadata"),
            WriteError::BadTotalSize => to.write_str("the total size isn't 1 to 2^63 - 1"),
            WriteError::NoMessage => to.write_str("there is no such message"),
        }
    }
}

impl Error for WriteError {}

/// Returns the 68 bytes of a handshake.
pub fn handshake(reserved: u64, info_hash: [u8; 20], peer_id: [u8; 20]) -> [u8; 68] {
    let mut out = [0; 68];
    // SAFETY: the pointer and the length are those of `out`.
    unsafe { ffi::bt_write_handshake(&ffi::Handshake { reserved, info_hash, peer_id }, out.as_mut_ptr(), out.len()) };
    out
}

/// Writes messages, each judged as the peer judges it. Write in the order in which you send.
pub struct Writer {
    peer: ffi::Reader,
    count: u64,
}

impl fmt::Debug for Writer {
    fn fmt(&self, to: &mut fmt::Formatter<'_>) -> fmt::Result {
        to.debug_struct("Writer").field("peer", &self.peer()).field("message", &self.count).finish_non_exhaustive()
    }
}

impl Writer {
    /// Makes a writer of your own values and the reserved bits of the peer's handshake.
    pub fn new(own: &Own, reserved: u64) -> Writer {
        let mut peer = ffi::Reader::default();
        // SAFETY: both are whole structs.
        unsafe { ffi::bt_writer_init(&mut peer, &own.to_c(), reserved) };
        Writer { peer, count: 1 }
    }

    /// Returns what the peer is taken to be: it has announced neither its limit nor its rules, so these are yours.
    pub fn peer(&self) -> Own {
        Own::of(&self.peer.own)
    }

    /// Sets what the peer is taken to be, if you know better.
    pub fn set_peer(&mut self, peer: &Own) {
        self.peer.own = peer.to_c();
    }

    /// Takes the id for `ut_metadata` if the peer's item announces one.
    pub fn hear(&mut self, item: &Item<'_>) {
        if let Message::Extended { extended: Extended::Handshake { ut_metadata: Some(id), .. }, .. } = item.message {
            self.peer.own.metadata_id = id;
        }
    }

    /// Appends a message. Of an extended one, `id` and `payload` are written as they are.
    ///
    /// # Errors
    /// The peer would refuse it, or there is no such message; nothing is appended.
    pub fn write(&mut self, message: &Message<'_>, to: &mut Vec<u8>) -> Result<(), WriteError> {
        let (item, body) = message.parts();
        self.append(to, HEAD + body.len(), WriteError::NoMessage, |peer, out, written| {
            // SAFETY: each pointer and the length beside it are those of a slice.
            unsafe { ffi::bt_write(peer, &item, body.as_ptr(), body.len(), out.as_mut_ptr(), out.len(), written) }
        })
    }

    /// Appends the extended handshake: your id for `ut_metadata`, if it isn't 0, and the size of the metadata that you serve.
    ///
    /// # Errors
    /// The peer would refuse it; nothing is appended.
    pub fn extended_handshake(&mut self, metadata_id: u8, size: Option<u64>, to: &mut Vec<u8>) -> Result<(), WriteError> {
        self.append(to, HEAD + DICT, WriteError::NoMessage, |peer, out, written| {
            let (has_size, size) = (size.is_some().into(), size.unwrap_or(0));
            // SAFETY: the pointer and the length are those of `out`.
            unsafe { ffi::bt_write_extended_handshake(peer, metadata_id, has_size, size, out.as_mut_ptr(), out.len(), written) }
        })
    }

    /// Appends a request for a block of the metadata.
    ///
    /// # Errors
    /// The peer announced no id, or would refuse it; nothing is appended.
    pub fn metadata_request(&mut self, piece: u32, to: &mut Vec<u8>) -> Result<(), WriteError> {
        self.metadata(ffi::METADATA_REQUEST, piece, 0, &[], to)
    }

    /// Appends a block of the metadata.
    ///
    /// # Errors
    /// The peer announced no id, or would refuse it, or the total size doesn't fit; nothing is appended.
    pub fn metadata_data(&mut self, piece: u32, total_size: u64, block: &[u8], to: &mut Vec<u8>) -> Result<(), WriteError> {
        if total_size == 0 || total_size >= 1 << 63 {
            return Err(WriteError::BadTotalSize);
        }
        self.metadata(ffi::METADATA_DATA, piece, total_size, block, to)
    }

    /// Appends that a block of the metadata won't come.
    ///
    /// # Errors
    /// The peer announced no id, or would refuse it; nothing is appended.
    pub fn metadata_reject(&mut self, piece: u32, to: &mut Vec<u8>) -> Result<(), WriteError> {
        self.metadata(ffi::METADATA_REJECT, piece, 0, &[], to)
    }

    fn metadata(&mut self, kind: u8, piece: u32, total: u64, block: &[u8], to: &mut Vec<u8>) -> Result<(), WriteError> {
        self.append(to, HEAD + DICT + block.len(), WriteError::NoMetadataId, |peer, out, written| {
            let (room, n) = (out.len(), block.len());
            // SAFETY: each pointer and the length beside it are those of a slice.
            unsafe { ffi::bt_write_metadata(peer, kind, piece, total, block.as_ptr(), n, out.as_mut_ptr(), room, written) }
        })
    }

    fn append(
        &mut self, to: &mut Vec<u8>, room: usize, unwritten: WriteError,
        call: impl FnOnce(&mut ffi::Reader, &mut [u8], &mut ffi::Item) -> u32,
    ) -> Result<(), WriteError> {
        let (start, mut written) = (to.len(), ffi::Item::default());
        to.resize(start + room, 0);
        let answer = call(&mut self.peer, &mut to[start..], &mut written);
        to.truncate(if answer == ffi::ITEM { start + written.size as usize } else { start });
        match answer {
            ffi::ITEM => {
                self.count += 1;
                Ok(())
            }
            ffi::REFUSED => Err(WriteError::Refused(Refused::by(&written, self.count))),
            _ => Err(unwritten),
        }
    }
}
