//! The input, and the walk over a stream's items.
use crate::judging::{Judged, Reason::*, Receiver, Seen};
use std::io::{self, Read};

pub const CHUNK: usize = 1 << 16;

/// The input, held from the start of the present item on; `at` is that start's offset.
pub struct Input<R> {
    from: R,
    bytes: Vec<u8>,
    start: usize,
    end: usize,
    pub at: u64,
}

impl<R: Read> Input<R> {
    pub fn new(from: R, size: usize) -> Input<R> {
        let bytes = vec![0; size];
        Input {
            from,
            bytes,
            start: 0,
            end: 0,
            at: 0,
        }
    }

    pub fn held(&self) -> &[u8] {
        &self.bytes[self.start..self.end]
    }

    /// Reads on until `count` bytes are held; false where the input ends before.
    fn want(&mut self, count: usize) -> io::Result<bool> {
        if self.end - self.start >= count {
            Ok(true)
        } else {
            self.fill(count)
        }
    }

    #[cold]
    fn fill(&mut self, count: usize) -> io::Result<bool> {
        if self.start > 0 {
            self.bytes.copy_within(self.start..self.end, 0);
            (self.start, self.end) = (0, self.end - self.start);
        }
        while self.end < count {
            let upto = self.bytes.len().min(count.max(self.end) + CHUNK);
            match self.from.read(&mut self.bytes[self.end..upto]) {
                Ok(0) => return Ok(false),
                Ok(n) => self.end += n,
                Err(fault) if fault.kind() == io::ErrorKind::Interrupted => {}
                Err(fault) => return Err(fault),
            }
        }
        Ok(true)
    }

    pub fn advance(&mut self, count: usize) {
        self.start += count;
        self.at += count as u64;
    }

    /// The length of the first line, without and with its line feed; both are 0 at the end. Of a line that is longer than
    /// `most` it may be a part.
    pub fn line(&mut self, most: usize) -> io::Result<(usize, usize)> {
        let mut seen = 0;
        loop {
            if let Some(place) = line_feed(&self.held()[seen..]) {
                return Ok((seen + place, seen + place + 1));
            }
            seen = self.held().len();
            if seen > most || !self.fill(seen + 1)? {
                return Ok((seen, seen));
            }
        }
    }
}

/// The place of the first line feed, looked for in blocks, in which no branch is taken.
fn line_feed(text: &[u8]) -> Option<usize> {
    let lacks = |block: &&[u8]| {
        !block
            .iter()
            .fold(false, |found, byte| found | (*byte == b'\n'))
    };
    let after = 64 * text.chunks_exact(64).take_while(lacks).count();
    let place = text[after..].iter().position(|byte| *byte == b'\n')?;
    Some(after + place)
}

/// Where the items of a stream go.
pub trait Sink {
    fn handshake(&mut self, bytes: &[u8]);
    fn keep_alive(&mut self, at: u64);
    fn message(&mut self, at: u64, bytes: &[u8], seen: &Seen);
    fn has_failed(&self) -> bool;
}

/// Judges the whole stream. The count is of the messages that were accepted.
pub fn walk<R: Read, S: Sink>(
    receiver: &mut Receiver,
    input: &mut Input<R>,
    sink: &mut S,
    count: &mut u64,
) -> io::Result<Judged<()>> {
    input.want(68)?;
    let held = &input.held()[..input.held().len().min(68)];
    if let Err(refusal) = receiver.handshake(held) {
        return Ok(Err(refusal));
    }
    sink.handshake(held);
    input.advance(68);
    loop {
        if input.at >= 1 << 62 {
            return Ok(Err((0, StreamFull)));
        }
        if !input.want(4)? {
            let held = input.held().len();
            return Ok(if held == 0 {
                Ok(())
            } else {
                Err((held, EndInside))
            });
        }
        let length = u32::from_be_bytes(input.held()[..4].try_into().unwrap());
        if length > receiver.limit {
            return Ok(Err((0, TooLong)));
        }
        let whole = 4 + length as usize;
        if length == 0 {
            sink.keep_alive(input.at);
        } else {
            if !input.want(5)? {
                return Ok(Err((4, EndInside)));
            }
            if let Err(refusal) = receiver.header(length, input.held()[4]) {
                return Ok(Err(refusal));
            }
            if !input.want(whole)? {
                return Ok(Err((input.held().len(), EndInside)));
            }
            let bytes = &input.held()[..whole];
            match receiver.message(bytes) {
                Ok(seen) => sink.message(input.at, bytes, &seen),
                Err(refusal) => return Ok(Err(refusal)),
            }
        }
        input.advance(whole);
        *count += 1;
        if sink.has_failed() {
            return Ok(Ok(())); // the caller sees the failed write
        }
    }
}
