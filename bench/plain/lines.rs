//! What goes out, and the lines of `show`.
use crate::hex;
use crate::judging::{Kind, Seen};
use crate::reading::{CHUNK, Sink};
use std::io::{self, Write};

/// The output: text is written in place, and goes out in large pieces. A failed write is kept.
pub struct Text<W> {
    to: W,
    text: Box<[u8; CHUNK + 256]>,
    used: usize,
    pub written: io::Result<()>,
}

impl<W: Write> Text<W> {
    pub fn new(to: W) -> Text<W> {
        let text = Box::new([0; CHUNK + 256]);
        Text {
            to,
            text,
            used: 0,
            written: Ok(()),
        }
    }

    pub fn number(&mut self, mut number: u64) {
        static PAIRS: [[u8; 2]; 100] = {
            let mut pairs = [[0; 2]; 100];
            let mut k = 0;
            while k < 100 {
                pairs[k] = [b'0' + (k / 10) as u8, b'0' + (k % 10) as u8];
                k += 1;
            }
            pairs
        };
        let mut left = number.checked_ilog10().map_or(1, |log| log as usize + 1);
        let digits = &mut self.text[self.used..self.used + left];
        self.used += left;
        while left > 4 {
            left -= 4;
            let four = (number % 10_000) as usize;
            number /= 10_000;
            digits[left..left + 2].copy_from_slice(&PAIRS[four / 100]);
            digits[left + 2..left + 4].copy_from_slice(&PAIRS[four % 100]);
        }
        let mut number = number as usize;
        while left > 1 {
            left -= 2;
            digits[left..left + 2].copy_from_slice(&PAIRS[number % 100]);
            number /= 100;
        }
        if left == 1 {
            digits[0] = b'0' + number as u8;
        }
    }

    #[inline(always)]
    pub fn word(&mut self, word: &str) {
        self.text[self.used..self.used + word.len()].copy_from_slice(word.as_bytes());
        self.used += word.len();
    }

    #[inline(always)]
    pub fn words<const N: usize>(&mut self, name: &str, numbers: [u64; N]) {
        self.word(name);
        for number in numbers {
            self.word(" ");
            self.number(number);
        }
    }

    /// Writes bytes in hex, however many.
    pub fn hex(&mut self, mut bytes: &[u8]) {
        while !bytes.is_empty() {
            if self.used + 2 > CHUNK {
                self.flush();
            }
            let (some, rest) = bytes.split_at(bytes.len().min((CHUNK - self.used) / 2));
            let digits = &mut self.text[self.used..self.used + 2 * some.len()];
            hex::encode(some, digits);
            self.used += 2 * some.len();
            bytes = rest;
        }
    }

    /// Ends a line. But for bytes in hex each is below 256 bytes, so the next one has room.
    #[inline(always)]
    pub fn end_line(&mut self) {
        self.word("\n");
        if self.used >= CHUNK {
            self.flush();
        }
    }

    #[cold]
    pub fn flush(&mut self) {
        if self.written.is_ok() {
            let text = &self.text[..self.used];
            self.written = self.to.write_all(text).and_then(|()| self.to.flush());
        }
        self.used = 0;
    }

    /// The words of a handshake.
    pub fn handshake(&mut self, bytes: &[u8]) {
        self.word("handshake");
        for part in [&bytes[20..28], &bytes[28..48], &bytes[48..68]] {
            self.word(" ");
            self.hex(part);
        }
        self.end_line();
    }

    /// The words of a message that has numbers alone; false for another, of which it writes nothing.
    #[inline(always)]
    pub fn numbers(&mut self, bytes: &[u8]) -> bool {
        let field = |k: usize| field(bytes, k);
        match bytes[4] {
            0 => self.words("choke", []),
            1 => self.words("unchoke", []),
            2 => self.words("interested", []),
            3 => self.words("not-interested", []),
            4 => self.words("have", [field(5)]),
            6 => self.words("request", [field(5), field(9), field(13)]),
            8 => self.words("cancel", [field(5), field(9), field(13)]),
            9 => self.words("port", [u16::from_be_bytes([bytes[5], bytes[6]]).into()]),
            13 => self.words("suggest", [field(5)]),
            14 => self.words("have-all", []),
            15 => self.words("have-none", []),
            16 => self.words("reject", [field(5), field(9), field(13)]),
            17 => self.words("allowed-fast", [field(5)]),
            _ => return false,
        }
        true
    }

    fn ext_handshake(&mut self, dict: u64, rest: u64, size: Option<i64>, id: Option<i64>) {
        self.words("ext-handshake", [dict, rest]);
        for (name, value) in [(" size=", size), (" ut_metadata=", id)] {
            self.word(name);
            match value {
                Some(n) => self.number(n as u64),
                None => self.word("-"),
            }
        }
    }
}

/// The big-endian number of four bytes that begins there.
#[inline(always)]
pub fn field(bytes: &[u8], k: usize) -> u64 {
    u64::from(u32::from_be_bytes(bytes[k..k + 4].try_into().unwrap()))
}

/// The lines of `show`.
pub struct Shown<'a, W>(pub &'a mut Text<W>);

impl<W: Write> Sink for Shown<'_, W> {
    fn handshake(&mut self, bytes: &[u8]) {
        self.0.word("0 ");
        self.0.handshake(bytes);
    }

    #[inline(always)]
    fn keep_alive(&mut self, at: u64) {
        self.0.number(at);
        self.0.word(" keep-alive");
        self.0.end_line();
    }

    #[inline(always)]
    fn message(&mut self, at: u64, bytes: &[u8], seen: &Seen) {
        let text = &mut *self.0;
        text.number(at);
        text.word(" ");
        let size = bytes.len() as u64;
        if !text.numbers(bytes) {
            match (bytes[4], seen) {
                (5, _) => text.words("bitfield", [size - 5]),
                (7, _) => text.words("piece", [field(bytes, 5), field(bytes, 9), size - 13]),
                (20, Seen::Raw) => text.words("extended", [bytes[5].into(), size - 6]),
                (20, Seen::Handshake(dict, rest, fields)) => {
                    let size = fields.metadata_size.flatten().filter(|n| *n >= 0);
                    let id = fields
                        .ut_metadata
                        .flatten()
                        .filter(|n| (0..=255).contains(n));
                    text.ext_handshake(*dict, *rest, size, id);
                }
                (20, Seen::Metadata(dict, rest, kind)) => match *kind {
                    Kind::Request(p) => text.words("metadata-request", [p]),
                    Kind::Data(p, t) => text.words("metadata-data", [p, t, *rest]),
                    Kind::Reject(p) => text.words("metadata-reject", [p]),
                    Kind::Other => text.words("metadata-other", [*dict, *rest]),
                    Kind::Malformed => text.words("metadata-malformed", [*dict, *rest]),
                },
                (id, _) => text.words("unknown", [id.into(), size - 5]),
            }
        }
        text.end_line();
    }

    fn has_failed(&self) -> bool {
        self.0.written.is_err()
    }
}
