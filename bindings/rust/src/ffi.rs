//! The structs and calls of bt.h.

pub const ABI: u32 = 2;
pub const MORE: u32 = 0;
pub const ITEM: u32 = 1;
pub const REFUSED: u32 = 2;
pub const END: u32 = 3;

pub const EXT_HANDSHAKE: u8 = 1;
pub const METADATA_REQUEST: u8 = 2;
pub const METADATA_DATA: u8 = 3;
pub const METADATA_REJECT: u8 = 4;
pub const METADATA_OTHER: u8 = 5;
pub const METADATA_MALFORMED: u8 = 6;
pub const EXT_RAW: u8 = 7;
pub const DONTHAVE: u8 = 8;

#[repr(C)]
#[derive(Clone, Copy, Default)]
pub struct Own {
    pub reserved: u64,
    pub limit: u32,
    pub pieces: u32,
    pub has_pieces: u8,
    pub has_info_hash: u8,
    pub metadata_id: u8,
    pub donthave_id: u8,
    pub strict: u8,
    pub info_hash: [u8; 20],
}

#[repr(C)]
#[derive(Clone, Copy, Default)]
pub struct Reader {
    pub own: Own,
    pub opened: u8,
    pub fast: u8,
    pub ext: u8,
    pub past: u8,
    pub start: u64,
}

#[repr(C)]
#[derive(Clone, Copy, Default)]
pub struct Extended {
    pub total_size: u64,
    pub metadata_size: u64,
    pub dict: u64,
    pub piece: u32,
    pub kind: u8,
    pub ut_metadata: u8,
    pub has_metadata_size: u8,
    pub has_ut_metadata: u8,
}

#[repr(C)]
#[derive(Clone, Copy, Default)]
pub struct Item {
    pub start: u64,
    pub size: u64,
    pub body: u64,
    pub reserved: u64,
    pub index: u32,
    pub begin: u32,
    pub length: u32,
    pub port: u16,
    pub id: u16,
    pub extended_id: u8,
    pub reason: u8,
    pub extended: Extended,
}

#[repr(C)]
#[derive(Default)]
pub struct Verdict {
    pub message: u64,
    pub at: u64,
    pub reason: u8,
}

#[repr(C)]
pub struct Handshake {
    pub reserved: u64,
    pub info_hash: [u8; 20],
    pub peer_id: [u8; 20],
}

/// An end that C holds. It isn't copied.
#[repr(C)]
pub struct End {
    pub state: *mut u8,
    pub held: u8,
}

#[repr(C)]
pub struct EndConfig {
    pub own: Own,
    pub most: u64,
    pub peer_id: [u8; 20],
    pub announce: u8,
    pub window: u8,
    pub role: u8,
}

#[repr(C)]
#[derive(Clone, Copy, Default)]
pub struct Event {
    pub size: u64,
    pub kind: u32,
    pub piece: u32,
    pub id: u8,
    pub has_id: u8,
    pub has_size: u8,
    pub begins: u8,
    pub peer_id: [u8; 20],
}

#[repr(C)]
#[derive(Default)]
pub struct Heard {
    pub used: u64,
    pub item: Item,
    pub event: Event,
    pub verdict: Verdict,
}

#[repr(C)]
#[derive(Default)]
pub struct Progress {
    pub size: u64,
    pub blocks: u64,
    pub held: u64,
}

const _: () = assert!(std::mem::size_of::<usize>() == 8, "the library is built for 64 bits");
const _: () = assert!(std::mem::size_of::<Own>() == 48 && std::mem::size_of::<Reader>() == 64);
const _: () = assert!(std::mem::size_of::<Item>() == 88 && std::mem::size_of::<Extended>() == 32);
const _: () = assert!(std::mem::size_of::<EndConfig>() == 80 && std::mem::size_of::<Heard>() == 160);

extern "C" {
    pub fn bt_abi() -> u32;
    pub fn bt_reader_init(reader: &mut Reader, own: &Own);
    pub fn bt_reader_next(reader: &mut Reader, bytes: *const u8, n: usize, item: &mut Item) -> u32;
    pub fn bt_reader_finish(reader: &mut Reader, bytes: *const u8, n: usize, item: &mut Item) -> u32;
    pub fn bt_check(own: &Own, bytes: *const u8, n: usize, verdict: &mut Verdict) -> u32;
    pub fn bt_write_handshake(handshake: &Handshake, out: *mut u8, room: usize) -> usize;
    pub fn bt_writer_init(peer: &mut Reader, own: &Own, reserved: u64);
    pub fn bt_write(
        peer: &mut Reader, message: &Item, body: *const u8, n: usize, out: *mut u8, room: usize, written: &mut Item,
    ) -> u32;
    pub fn bt_write_metadata(
        peer: &mut Reader, kind: u8, piece: u32, total_size: u64, block: *const u8, n: usize, out: *mut u8, room: usize,
        written: &mut Item,
    ) -> u32;
    pub fn bt_write_extended_handshake(
        peer: &mut Reader, metadata_id: u8, has_size: u8, size: u64, out: *mut u8, room: usize, written: &mut Item,
    ) -> u32;
    pub fn bt_end_new(end: &mut End, config: &EndConfig, metadata: *const u8, n: usize) -> u32;
    pub fn bt_end_free(end: &mut End);
    pub fn bt_end_reset(end: &mut End) -> u32;
    pub fn bt_end_next(end: &mut End, bytes: *const u8, n: usize, heard: &mut Heard, out: *mut u8, room: usize) -> u32;
    pub fn bt_end_waiting(end: &mut End) -> usize;
    pub fn bt_end_outgoing(end: &mut End, out: *mut u8, room: usize) -> usize;
    pub fn bt_end_sent(end: &mut End, n: usize);
    pub fn bt_end_metadata(end: &mut End, out: *mut u8, room: usize) -> usize;
    pub fn bt_end_progress(end: &mut End, progress: &mut Progress) -> u32;
    pub fn bt_end_is_hopeless(end: &mut End) -> u32;
    pub fn bt_end_mismatches(end: &mut End) -> u64;
    pub fn bt_end_begin(end: &mut End, size: u64) -> u32;
    pub fn bt_end_set_window(end: &mut End, window: u8);
    pub fn bt_end_say(end: &mut End, message: &Item, body: *const u8, n: usize) -> u32;
    #[cfg(test)]
    pub fn bt_reason_name(reason: u32, text: *mut u8, room: usize) -> usize;
    #[cfg(test)]
    pub fn bt_item_name(item: &Item, text: *mut u8, room: usize) -> usize;
}
