//! The receiver of a stream.
use crate::ffi;

/// Reserved bit of the Fast Extension (BEP 6).
pub const FAST: u64 = 0x4;
/// Reserved bit of the DHT (BEP 5).
pub const DHT: u64 = 0x1;
/// Reserved bit of the extension protocol (BEP 10).
pub const EXTENSIONS: u64 = 0x10_0000;

/// The receiver: what a stream is judged by.
#[derive(Clone, Copy, Debug, PartialEq, Eq)]
pub struct Own {
    /// Its reserved bits, as a big-endian number.
    pub reserved: u64,
    /// The torrent's info hash; `None` accepts every one.
    pub info_hash: Option<[u8; 20]>,
    /// How many pieces the torrent has, if that is known.
    pub pieces: Option<u32>,
    /// The id that it announced for `ut_metadata`; 0 for none.
    pub metadata_id: u8,
    /// The id that it announced for `lt_donthave`; 0 for none.
    pub donthave_id: u8,
    /// Whether all rules hold (`bep`), or only those that a decoder needs (`free`).
    pub strict: bool,
    /// The greatest length of a message.
    pub limit: u32,
}

impl Default for Own {
    fn default() -> Own {
        Own {
            reserved: FAST | DHT | EXTENSIONS,
            info_hash: None,
            pieces: None,
            metadata_id: 3,
            donthave_id: 0,
            strict: false,
            limit: 262_144,
        }
    }
}

impl Own {
    pub(crate) fn to_c(self) -> ffi::Own {
        // SAFETY: it takes nothing.
        assert_eq!(unsafe { ffi::bt_abi() }, ffi::ABI, "libbt.a has other structs");
        ffi::Own {
            reserved: self.reserved,
            limit: self.limit,
            pieces: self.pieces.unwrap_or(0),
            has_pieces: self.pieces.is_some().into(),
            has_info_hash: self.info_hash.is_some().into(),
            metadata_id: self.metadata_id,
            donthave_id: self.donthave_id,
            strict: self.strict.into(),
            info_hash: self.info_hash.unwrap_or_default(),
        }
    }

    pub(crate) fn of(own: &ffi::Own) -> Own {
        Own {
            reserved: own.reserved,
            info_hash: (own.has_info_hash != 0).then_some(own.info_hash),
            pieces: (own.has_pieces != 0).then_some(own.pieces),
            metadata_id: own.metadata_id,
            donthave_id: own.donthave_id,
            strict: own.strict != 0,
            limit: own.limit,
        }
    }
}
