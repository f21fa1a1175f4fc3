//! Scripts: the lines of `unpack`, and `pack`.
use crate::Fault;
use crate::hex;
use crate::judging::{Reason, Receiver, Seen, has_meaning};
use crate::lines::{Text, field};
use crate::reading::{CHUNK, Input, Sink};
use std::io::{Read, Write};

/// The lines of `unpack`.
pub struct Script<'a, W>(pub &'a mut Text<W>);

impl<W: Write> Script<'_, W> {
    fn bytes(&mut self, bytes: &[u8]) {
        self.0.word(" ");
        if bytes.is_empty() {
            self.0.word("-");
        }
        self.0.hex(bytes);
    }
}

impl<W: Write> Sink for Script<'_, W> {
    fn handshake(&mut self, bytes: &[u8]) {
        self.0.handshake(bytes);
    }

    fn keep_alive(&mut self, _: u64) {
        self.0.word("keep-alive");
        self.0.end_line();
    }

    #[inline(always)]
    fn message(&mut self, _: u64, bytes: &[u8], _: &Seen) {
        let text = &mut *self.0;
        if !text.numbers(bytes) {
            let begin = match bytes[4] {
                5 => {
                    text.word("bitfield");
                    5
                }
                7 => {
                    text.words("piece", [field(bytes, 5), field(bytes, 9)]);
                    13
                }
                20 => {
                    text.words("extended", [bytes[5].into()]);
                    6
                }
                id => {
                    text.words("unknown", [id.into()]);
                    5
                }
            };
            self.bytes(&bytes[begin..]);
        }
        self.0.end_line();
    }

    fn has_failed(&self) -> bool {
        self.0.written.is_err()
    }
}

/// The length of the longest line that is read.
pub fn longest_line(receiver: &Receiver) -> usize {
    2 * receiver.limit as usize + 256
}

/// Encodes a script into a stream; stops at the first invalid line, and returns its number and the reason.
pub fn pack<R: Read, W: Write>(
    receiver: &mut Receiver,
    input: &mut Input<R>,
    mut to: W,
) -> Result<Option<(u64, Reason)>, Fault> {
    let longest = longest_line(receiver);
    let mut out = Vec::with_capacity(CHUNK + longest);
    let mut taken = 0;
    let refused = loop {
        let (length, whole) = input.line(longest).map_err(|_| Fault::Read)?;
        if whole == 0 && taken > 0 {
            break None;
        }
        let end = out.len();
        let text = &input.held()[..length];
        let judged = match length > longest {
            true => Err(Reason::Syntax),
            false if taken == 0 => take_first(receiver, text, &mut out),
            false => take_line(receiver, text, &mut out),
        };
        if let Err(reason) = judged {
            out.truncate(end);
            break Some((taken + 1, reason));
        }
        taken += 1;
        input.advance(whole);
        if out.len() >= CHUNK {
            to.write_all(&out).map_err(|_| Fault::Write)?;
            out.clear();
        }
    };
    to.write_all(&out)
        .and_then(|()| to.flush())
        .map_err(|_| Fault::Write)?;
    Ok(refused)
}

fn take_first(receiver: &mut Receiver, text: &[u8], out: &mut Vec<u8>) -> Result<(), Reason> {
    read_handshake(text, out).ok_or(Reason::Syntax)?;
    receiver.handshake(out).map_err(|(_, reason)| reason)
}

#[inline(always)]
fn take_line(receiver: &mut Receiver, text: &[u8], out: &mut Vec<u8>) -> Result<(), Reason> {
    let start = out.len();
    read_message(text, out).ok_or(Reason::Syntax)?;
    receiver
        .whole(&out[start..])
        .map(|_| ())
        .map_err(|(_, reason)| reason)
}

/// Appends the handshake of a line. None where it is no such line.
fn read_handshake(text: &[u8], out: &mut Vec<u8>) -> Option<()> {
    let words: Vec<&[u8]> = text.split(|byte| *byte == b' ').collect();
    let [b"handshake", reserved, info_hash, peer_id] = words[..] else {
        return None;
    };
    out.extend_from_slice(b"\x13BitTorrent protocol");
    out.extend_from_slice(&hex::array::<8>(reserved)?);
    out.extend_from_slice(&hex::array::<20>(info_hash)?);
    out.extend_from_slice(&hex::array::<20>(peer_id)?);
    Some(())
}

/// Appends the message of a line, whose length and id are filled in last. None where it is no such line.
#[inline(always)]
fn read_message(text: &[u8], out: &mut Vec<u8>) -> Option<()> {
    if text == b"keep-alive" {
        out.extend_from_slice(&[0; 4]);
        return Some(());
    }
    let name_end = text
        .iter()
        .position(|byte| *byte == b' ')
        .unwrap_or(text.len());
    let (name, mut rest) = text.split_at(name_end);
    let start = out.len();
    out.extend_from_slice(&[0; 5]);
    let id = match name {
        b"choke" => 0,
        b"unchoke" => 1,
        b"interested" => 2,
        b"not-interested" => 3,
        b"have" => read_numbers::<1>(4, &mut rest, out)?,
        b"bitfield" => read_bytes(5, &mut rest, out)?,
        b"request" => read_numbers::<3>(6, &mut rest, out)?,
        b"piece" => {
            read_numbers::<2>(7, &mut rest, out)?;
            read_bytes(7, &mut rest, out)?
        }
        b"cancel" => read_numbers::<3>(8, &mut rest, out)?,
        b"port" => {
            out.extend_from_slice(&u16::try_from(read_number(&mut rest)?).ok()?.to_be_bytes());
            9
        }
        b"suggest" => read_numbers::<1>(13, &mut rest, out)?,
        b"have-all" => 14,
        b"have-none" => 15,
        b"reject" => read_numbers::<3>(16, &mut rest, out)?,
        b"allowed-fast" => read_numbers::<1>(17, &mut rest, out)?,
        b"extended" => {
            out.push(u8::try_from(read_number(&mut rest)?).ok()?);
            read_bytes(20, &mut rest, out)?
        }
        b"unknown" => {
            let id = u8::try_from(read_number(&mut rest)?)
                .ok()
                .filter(|id| !has_meaning(*id))?;
            read_bytes(id, &mut rest, out)?
        }
        _ => return None,
    };
    if !rest.is_empty() {
        return None;
    }
    let length = (out.len() - start - 4) as u32;
    out[start..start + 4].copy_from_slice(&length.to_be_bytes());
    out[start + 4] = id;
    Some(())
}

/// Reads a space and a number without leading zeros. What follows has to be a space or the end, which the caller sees.
#[inline(always)]
fn read_number(rest: &mut &[u8]) -> Option<u32> {
    let [b' ', digits @ ..] = *rest else {
        return None;
    };
    let (mut number, mut count) = (0, 0);
    while let Some(digit @ b'0'..=b'9') = digits.get(count) {
        number = number * 10 + u64::from(digit - b'0');
        count += 1;
        if count > 10 {
            return None;
        }
    }
    if count == 0 || count > 1 && digits[0] == b'0' {
        return None;
    }
    *rest = &digits[count..];
    u32::try_from(number).ok()
}

/// Appends N numbers of four bytes.
#[inline(always)]
fn read_numbers<const N: usize>(id: u8, rest: &mut &[u8], out: &mut Vec<u8>) -> Option<u8> {
    for _ in 0..N {
        out.extend_from_slice(&read_number(rest)?.to_be_bytes());
    }
    Some(id)
}

/// Appends the bytes of the last word, which is `-` for none.
fn read_bytes(id: u8, rest: &mut &[u8], out: &mut Vec<u8>) -> Option<u8> {
    let [b' ', digits @ ..] = *rest else {
        return None;
    };
    *rest = &[];
    if digits.is_empty() {
        return None;
    }
    if digits != b"-" {
        let start = out.len();
        out.resize(start + digits.len() / 2, 0);
        hex::decode(digits, &mut out[start..])?;
    }
    Some(id)
}
