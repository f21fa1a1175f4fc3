//! What a stream has: the handshake and the messages.
use crate::ffi;

/// An item of a stream, which borrows its bytes.
#[derive(Clone, Copy, Debug, PartialEq, Eq)]
pub struct Item<'a> {
    /// Its offset on the stream.
    pub start: u64,
    /// All its bytes.
    pub data: &'a [u8],
    /// What it says.
    pub message: Message<'a>,
}

/// A block of a piece.
#[derive(Clone, Copy, Debug, PartialEq, Eq)]
pub struct Block {
    /// The number of the piece.
    pub index: u32,
    /// Where the block begins in the piece.
    pub begin: u32,
    /// How many bytes it has.
    pub length: u32,
}

/// The handshake or a message.
#[derive(Clone, Copy, Debug, PartialEq, Eq)]
#[non_exhaustive]
pub enum Message<'a> {
    /// The handshake (BEP 3).
    Handshake {
        /// The reserved bits, as a big-endian number.
        reserved: u64,
        /// The torrent's info hash.
        info_hash: &'a [u8; 20],
        /// The sender's id.
        peer_id: &'a [u8; 20],
    },
    /// A message without content.
    KeepAlive,
    /// No blocks are sent to the receiver.
    Choke,
    /// The receiver may request blocks.
    Unchoke,
    /// The sender wants blocks.
    Interested,
    /// The sender wants no blocks.
    NotInterested,
    /// The sender has this piece.
    Have(u32),
    /// Which pieces the sender has, a bit each.
    Bitfield(&'a [u8]),
    /// The sender wants a block.
    Request(Block),
    /// A block.
    Piece {
        /// The number of the piece.
        index: u32,
        /// Where the block begins in the piece.
        begin: u32,
        /// The block.
        block: &'a [u8],
    },
    /// The sender no longer wants a block.
    Cancel(Block),
    /// The port of the sender's DHT node (BEP 5).
    Port(u16),
    /// The receiver might ask for this piece (BEP 6).
    Suggest(u32),
    /// The sender has all pieces (BEP 6).
    HaveAll,
    /// The sender has no piece (BEP 6).
    HaveNone,
    /// A requested block won't come (BEP 6).
    Reject(Block),
    /// The receiver may request this piece while it is choked (BEP 6).
    AllowedFast(u32),
    /// A message of the extension protocol (BEP 10).
    Extended {
        /// The id within the extension protocol.
        id: u8,
        /// The whole payload.
        payload: &'a [u8],
        /// What it is.
        extended: Extended<'a>,
    },
    /// A message with an id that no standard gives a meaning.
    Unknown {
        /// Its id.
        id: u8,
        /// Its payload.
        payload: &'a [u8],
    },
}

/// What an extended message is. `dict` is its dictionary, `rest` what follows that.
#[derive(Clone, Copy, Debug, PartialEq, Eq)]
#[non_exhaustive]
pub enum Extended<'a> {
    /// An extended handshake (BEP 10).
    Handshake {
        /// Its dictionary.
        dict: &'a [u8],
        /// What follows the dictionary.
        rest: &'a [u8],
        /// How many bytes the metadata has.
        metadata_size: Option<u64>,
        /// The sender's id for `ut_metadata`; 0 switches it off.
        ut_metadata: Option<u8>,
    },
    /// A request for a block of the metadata (BEP 9).
    MetadataRequest(u32),
    /// A block of the metadata (BEP 9).
    MetadataData {
        /// The number of the block.
        piece: u32,
        /// How many bytes the whole metadata has.
        total_size: u64,
        /// The block.
        block: &'a [u8],
    },
    /// A block of the metadata won't come (BEP 9).
    MetadataReject(u32),
    /// A metadata message of a type that BEP 9 doesn't have.
    MetadataOther {
        /// Its dictionary.
        dict: &'a [u8],
        /// What follows the dictionary.
        rest: &'a [u8],
    },
    /// A metadata message in which a key is missing or isn't such a number.
    MetadataMalformed {
        /// Its dictionary.
        dict: &'a [u8],
        /// What follows the dictionary.
        rest: &'a [u8],
    },
    /// The sender no longer has this piece (`lt_donthave`).
    DontHave(u32),
    /// A message under an id that the receiver didn't announce.
    Raw,
}

impl Item<'_> {
    /// Returns its name as `bt_tool show` prints it, like "have" or "metadata-request".
    pub fn name(&self) -> &'static str {
        self.message.name()
    }
}

impl<'a> Message<'a> {
    /// Returns its name as `bt_tool show` prints it.
    pub fn name(&self) -> &'static str {
        match self {
            Message::Handshake { .. } => "handshake",
            Message::KeepAlive => "keep-alive",
            Message::Choke => "choke",
            Message::Unchoke => "unchoke",
            Message::Interested => "interested",
            Message::NotInterested => "not-interested",
            Message::Have(_) => "have",
            Message::Bitfield(_) => "bitfield",
            Message::Request(_) => "request",
            Message::Piece { .. } => "piece",
            Message::Cancel(_) => "cancel",
            Message::Port(_) => "port",
            Message::Suggest(_) => "suggest",
            Message::HaveAll => "have-all",
            Message::HaveNone => "have-none",
            Message::Reject(_) => "reject",
            Message::AllowedFast(_) => "allowed-fast",
            Message::Extended { extended, .. } => extended.name(),
            Message::Unknown { .. } => "unknown",
        }
    }

    /// Reads the struct of an item whose bytes are `data`.
    pub(crate) fn of(item: &ffi::Item, data: &'a [u8]) -> Self {
        let body = &data[data.len() - (item.body as usize).min(data.len())..];
        let block = Block { index: item.index, begin: item.begin, length: item.length };
        match item.id {
            257 => Message::Handshake {
                reserved: item.reserved,
                info_hash: data[28..48].try_into().expect("20 bytes"),
                peer_id: data[48..68].try_into().expect("20 bytes"),
            },
            256 => Message::KeepAlive,
            0 => Message::Choke,
            1 => Message::Unchoke,
            2 => Message::Interested,
            3 => Message::NotInterested,
            4 => Message::Have(item.index),
            5 => Message::Bitfield(body),
            6 => Message::Request(block),
            7 => Message::Piece { index: item.index, begin: item.begin, block: body },
            8 => Message::Cancel(block),
            9 => Message::Port(item.port),
            13 => Message::Suggest(item.index),
            14 => Message::HaveAll,
            15 => Message::HaveNone,
            16 => Message::Reject(block),
            17 => Message::AllowedFast(item.index),
            20 => Message::Extended { id: item.extended_id, payload: body, extended: Extended::of(&item.extended, body) },
            other => Message::Unknown { id: other as u8, payload: body },
        }
    }

    /// Returns the struct of a message that is written, and its body.
    pub(crate) fn parts(&self) -> (ffi::Item, &'a [u8]) {
        let mut item = ffi::Item::default();
        let mut body: &[u8] = &[];
        item.id = match *self {
            Message::Handshake { .. } => 257,
            Message::KeepAlive => 256,
            Message::Choke => 0,
            Message::Unchoke => 1,
            Message::Interested => 2,
            Message::NotInterested => 3,
            Message::Have(index) => with_index(&mut item, 4, index),
            Message::Bitfield(bits) => with_body(&mut body, 5, bits),
            Message::Request(block) => with_block(&mut item, 6, block),
            Message::Piece { index, begin, block } => {
                (item.index, item.begin) = (index, begin);
                with_body(&mut body, 7, block)
            }
            Message::Cancel(block) => with_block(&mut item, 8, block),
            Message::Port(port) => {
                item.port = port;
                9
            }
            Message::Suggest(index) => with_index(&mut item, 13, index),
            Message::HaveAll => 14,
            Message::HaveNone => 15,
            Message::Reject(block) => with_block(&mut item, 16, block),
            Message::AllowedFast(index) => with_index(&mut item, 17, index),
            Message::Extended { id, payload, .. } => {
                item.extended_id = id;
                with_body(&mut body, 20, payload)
            }
            Message::Unknown { id, payload } => with_body(&mut body, id.into(), payload),
        };
        (item, body)
    }
}

fn with_index(item: &mut ffi::Item, id: u16, index: u32) -> u16 {
    item.index = index;
    id
}

fn with_block(item: &mut ffi::Item, id: u16, block: Block) -> u16 {
    (item.index, item.begin, item.length) = (block.index, block.begin, block.length);
    id
}

fn with_body<'a>(body: &mut &'a [u8], id: u16, bytes: &'a [u8]) -> u16 {
    *body = bytes;
    id
}

impl<'a> Extended<'a> {
    /// Returns its name as `bt_tool show` prints it.
    pub fn name(&self) -> &'static str {
        match self {
            Extended::Handshake { .. } => "ext-handshake",
            Extended::MetadataRequest(_) => "metadata-request",
            Extended::MetadataData { .. } => "metadata-data",
            Extended::MetadataReject(_) => "metadata-reject",
            Extended::MetadataOther { .. } => "metadata-other",
            Extended::MetadataMalformed { .. } => "metadata-malformed",
            Extended::DontHave(_) => "donthave",
            Extended::Raw => "extended",
        }
    }

    fn of(shown: &ffi::Extended, payload: &'a [u8]) -> Self {
        let (dict, rest) = payload.split_at((shown.dict as usize).min(payload.len()));
        match shown.kind {
            ffi::EXT_HANDSHAKE => Extended::Handshake {
                dict,
                rest,
                metadata_size: (shown.has_metadata_size != 0).then_some(shown.metadata_size),
                ut_metadata: (shown.has_ut_metadata != 0).then_some(shown.ut_metadata),
            },
            ffi::METADATA_REQUEST => Extended::MetadataRequest(shown.piece),
            ffi::METADATA_DATA => Extended::MetadataData { piece: shown.piece, total_size: shown.total_size, block: rest },
            ffi::METADATA_REJECT => Extended::MetadataReject(shown.piece),
            ffi::METADATA_OTHER => Extended::MetadataOther { dict, rest },
            ffi::METADATA_MALFORMED => Extended::MetadataMalformed { dict, rest },
            ffi::DONTHAVE => Extended::DontHave(shown.piece),
            _ => Extended::Raw,
        }
    }
}
