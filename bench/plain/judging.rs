//! The receiver, and what it refuses.
use crate::bencoding::{Fields, scan};
use crate::hex;

#[derive(Clone, Copy, Debug)]
pub enum Reason {
    BadProtocol,
    WrongInfoHash,
    TooLong,
    UnknownId,
    NotNegotiated,
    WrongLength,
    BadIndex,
    SpareBits,
    Late,
    Missing,
    BadBencode,
    Unsorted,
    BadField,
    BadBlock,
    StreamFull,
    EndInside,
    /// Of a line of a script alone.
    Syntax,
}
use Reason::*;

/// A refusal's place, counted from the message's start, and its reason.
pub type Judged<T> = Result<T, (usize, Reason)>;

/// What the payload of an extended message was read as, with the length of its dictionary and of the rest.
pub enum Seen {
    Raw,
    Handshake(u64, u64, Fields),
    Metadata(u64, u64, Kind),
}

/// A metadata message.
pub enum Kind {
    Request(u64),
    Data(u64, u64),
    Reject(u64),
    Other,
    Malformed,
}

impl Kind {
    fn of(fields: &Fields) -> Kind {
        let piece = fields.piece.flatten().and_then(|n| u32::try_from(n).ok());
        let total = fields
            .total_size
            .flatten()
            .and_then(|n| u64::try_from(n).ok())
            .filter(|n| *n >= 1);
        match (fields.msg_type.flatten(), piece.map(u64::from), total) {
            (Some(0), Some(p), _) => Kind::Request(p),
            (Some(1), Some(p), Some(t)) => Kind::Data(p, t),
            (Some(2), Some(p), _) => Kind::Reject(p),
            (None | Some(0..=2), _, _) => Kind::Malformed,
            _ => Kind::Other,
        }
    }

    /// Whether `rest` bytes after the dictionary are what this message has there.
    fn block_fits(&self, rest: u64) -> bool {
        match *self {
            Kind::Request(_) | Kind::Reject(_) => rest == 0,
            Kind::Data(piece, total) => {
                let last = total.div_ceil(16_384) - 1;
                let whole = if piece < last {
                    16_384
                } else {
                    total - 16_384 * last
                };
                piece <= last && rest == whole
            }
            Kind::Other | Kind::Malformed => true,
        }
    }
}

/// The receiver, as the command line describes it; `fast` and `ext` are settled by the handshake.
pub struct Receiver {
    bep: bool,
    reserved: u64,
    pieces: Option<u32>,
    metadata_id: u8,
    info_hash: Option<[u8; 20]>,
    pub limit: u32,
    fast: bool,
    pub ext: bool,
    fresh: bool,
}

impl Receiver {
    /// None where the words are no right options.
    pub fn from_words(bep: bool, options: &[String]) -> Option<Receiver> {
        let mut receiver = Receiver {
            bep,
            reserved: 0x10_0005,
            pieces: None,
            metadata_id: 3,
            info_hash: None,
            limit: 262_144,
            fast: false,
            ext: false,
            fresh: true,
        };
        for (k, pair) in options.chunks(2).enumerate() {
            let [name, value] = pair else { return None };
            if options[..2 * k]
                .chunks(2)
                .any(|earlier| &earlier[0] == name)
            {
                return None;
            }
            match name.as_str() {
                "--rules" => {
                    receiver.bep = ["free", "bep"].iter().position(|word| word == value)? == 1
                }
                "--reserved" => {
                    receiver.reserved = u64::from_be_bytes(hex::array(value.as_bytes())?)
                }
                "--info-hash" => receiver.info_hash = Some(hex::array(value.as_bytes())?),
                "--pieces" => receiver.pieces = Some(decimal(value)?),
                "--metadata-id" => receiver.metadata_id = decimal(value)?.try_into().ok()?,
                "--limit" => {
                    receiver.limit = decimal(value).filter(|n| (1..=1 << 20).contains(n))?
                }
                _ => return None,
            }
        }
        Some(receiver)
    }

    /// The receiver that an end is: it judges by the rules `bep`, and doesn't know the piece count.
    pub fn of_end(reserved: u64, info_hash: [u8; 20], metadata_id: u8, limit: u32) -> Receiver {
        Receiver {
            bep: true,
            reserved,
            pieces: None,
            metadata_id,
            info_hash: Some(info_hash),
            limit,
            fast: false,
            ext: false,
            fresh: true,
        }
    }

    /// Judges the handshake, of which `held` is what there is of its 68 bytes.
    pub fn handshake(&mut self, held: &[u8]) -> Judged<()> {
        if let Some(place) = held
            .iter()
            .zip(b"\x13BitTorrent protocol")
            .position(|(a, b)| a != b)
        {
            return Err((place, BadProtocol));
        }
        if held.len() >= 48 && self.info_hash.is_some_and(|own| held[28..48] != own) {
            return Err((28, WrongInfoHash));
        }
        if held.len() < 68 {
            return Err((held.len(), EndInside));
        }
        let both = self.reserved & u64::from_be_bytes(held[20..28].try_into().unwrap());
        self.fast = both & 0x4 != 0;
        self.ext = both & 0x10_0000 != 0;
        Ok(())
    }

    /// Judges a message by its length and id.
    #[inline(always)]
    pub fn header(&self, length: u32, id: u8) -> Judged<()> {
        if self.bep && !has_meaning(id) {
            return Err((4, UnknownId));
        }
        if matches!(id, 13..=17) && !self.fast || id == 20 && !self.ext {
            return Err((4, NotNegotiated));
        }
        let right = match id {
            0..=3 | 14 | 15 => length == 1,
            4 | 13 | 17 => length == 5,
            5 => self.pieces.is_none_or(|n| length == 1 + n.div_ceil(8)),
            6 | 8 | 16 => length == 13,
            7 => length >= 9,
            9 => length == 3,
            20 => length >= 2,
            _ => true,
        };
        if !right {
            return Err((0, WrongLength));
        }
        if self.bep && matches!(id, 5 | 14 | 15) && !self.fresh {
            return Err((4, Late));
        }
        if self.bep && self.fast && self.fresh && !matches!(id, 5 | 9 | 14 | 15 | 20) {
            return Err((4, Missing));
        }
        Ok(())
    }

    /// Judges a whole message, `bytes` with its prefix, whose length and id were judged.
    #[inline(always)]
    pub fn message(&mut self, bytes: &[u8]) -> Judged<Seen> {
        let id = bytes[4];
        if let (4 | 6 | 7 | 8 | 13 | 16 | 17, Some(pieces)) = (id, self.pieces) {
            if u32::from_be_bytes(bytes[5..9].try_into().unwrap()) >= pieces {
                return Err((5, BadIndex));
            }
        }
        if let (5, Some(pieces @ 1..)) = (id, self.pieces) {
            if pieces % 8 != 0 && bytes[bytes.len() - 1] & (0xff >> (pieces % 8)) != 0 {
                return Err((bytes.len() - 1, SpareBits));
            }
        }
        if id == 20 && (bytes[5] == 0 || bytes[5] == self.metadata_id) {
            return self
                .dictionary(bytes[5], &bytes[6..])
                .map_err(|(place, why)| (6 + place, why));
        }
        self.fresh &= !matches!(id, 0..=8 | 13..=17);
        Ok(Seen::Raw)
    }

    /// Judges a whole message from its first byte on.
    #[inline(always)]
    pub fn whole(&mut self, bytes: &[u8]) -> Judged<Seen> {
        let length = bytes.len() as u32 - 4;
        if length > self.limit {
            return Err((0, TooLong));
        }
        if length == 0 {
            return Ok(Seen::Raw);
        }
        self.header(length, bytes[4])?;
        self.message(bytes)
    }

    /// Judges an extended handshake or a metadata message; places are counted from the payload's start.
    fn dictionary(&self, id: u8, payload: &[u8]) -> Judged<Seen> {
        let (length, unsorted, fields) =
            scan(payload, self.bep).map_err(|place| (place, BadBencode))?;
        if let Some(place) = unsorted {
            return Err((place, Unsorted));
        }
        let (dict, rest) = (length as u64, (payload.len() - length) as u64);
        if id == 0 {
            return if self.bep && fields.handshake_fault {
                Err((0, BadField))
            } else {
                Ok(Seen::Handshake(dict, rest, fields))
            };
        }
        let kind = Kind::of(&fields);
        if self.bep && matches!(kind, Kind::Malformed) {
            return Err((0, BadField));
        }
        if self.bep && !kind.block_fits(rest) {
            return Err((length, BadBlock));
        }
        Ok(Seen::Metadata(dict, rest, kind))
    }
}

/// Whether an id is in the table of ids.
pub fn has_meaning(id: u8) -> bool {
    matches!(id, 0..=9 | 13..=17 | 20)
}

fn decimal(text: &str) -> Option<u32> {
    let digits = text.bytes().all(|b| b.is_ascii_digit());
    text.parse().ok().filter(|_| digits)
}
