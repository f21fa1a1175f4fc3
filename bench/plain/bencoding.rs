//! Bencoding, and the fields of extended messages.

/// Which dictionary is read: the outermost, the first `m` in it, or one whose pairs nobody asks for.
#[derive(Clone, Copy, PartialEq)]
enum Inside {
    Top,
    Names,
    Other,
}

/// The values of the first pairs of these keys; an inner None is a value that is no integer.
#[derive(Default)]
pub struct Fields {
    names_seen: bool,
    pub handshake_fault: bool,
    pub ut_metadata: Option<Option<i64>>,
    pub metadata_size: Option<Option<i64>>,
    pub msg_type: Option<Option<i64>>,
    pub piece: Option<Option<i64>>,
    pub total_size: Option<Option<i64>>,
}

/// The dictionary that a payload begins with: its length, the first key out of order where that is asked, and its fields.
pub fn scan(payload: &[u8], sorted: bool) -> Result<(usize, Option<usize>, Fields), usize> {
    let mut scan = Scan {
        bytes: payload,
        at: 0,
        sorted,
        unsorted: None,
        fields: Fields::default(),
    };
    if payload.first() != Some(&b'd') {
        return Err(0);
    }
    scan.dict(1, Inside::Top)?;
    Ok((scan.at, scan.unsorted, scan.fields))
}

/// Reads bencoding once, from left to right. An error is the first byte that no fitting dictionary goes on with.
struct Scan<'a> {
    bytes: &'a [u8],
    at: usize,
    sorted: bool,
    unsorted: Option<usize>,
    fields: Fields,
}

impl<'a> Scan<'a> {
    fn peek(&self) -> Result<u8, usize> {
        self.bytes.get(self.at).copied().ok_or(self.at)
    }

    fn dict(&mut self, depth: u32, inside: Inside) -> Result<(), usize> {
        self.at += 1;
        let mut before: Option<&[u8]> = None;
        while self.peek()? != b'e' {
            let start = self.at;
            let key = self.string()?;
            if self.sorted && self.unsorted.is_none() && before.is_some_and(|before| key <= before)
            {
                self.unsorted = Some(start);
            }
            before = Some(key);
            match inside {
                Inside::Top => self.top_pair(key, depth)?,
                Inside::Names => {
                    let number = self.value(depth, Inside::Other)?;
                    self.fields.handshake_fault |= !matches!(number, Some(0..=255));
                    if key == b"ut_metadata" {
                        self.fields.ut_metadata.get_or_insert(number);
                    }
                }
                Inside::Other => _ = self.value(depth, Inside::Other)?,
            }
        }
        self.at += 1;
        Ok(())
    }

    fn top_pair(&mut self, key: &[u8], depth: u32) -> Result<(), usize> {
        if key == b"m" && !self.fields.names_seen {
            self.fields.names_seen = true;
            self.fields.handshake_fault |= self.peek()? != b'd';
            return self.value(depth, Inside::Names).map(|_| ());
        }
        let number = self.value(depth, Inside::Other)?;
        match key {
            b"metadata_size" => {
                self.fields.handshake_fault |= !matches!(number, Some(0..));
                self.fields.metadata_size.get_or_insert(number);
            }
            b"msg_type" => _ = self.fields.msg_type.get_or_insert(number),
            b"piece" => _ = self.fields.piece.get_or_insert(number),
            b"total_size" => _ = self.fields.total_size.get_or_insert(number),
            _ => {}
        }
        Ok(())
    }

    /// Reads one value in a container of this depth: the number of an integer, None for other values.
    fn value(&mut self, depth: u32, inside: Inside) -> Result<Option<i64>, usize> {
        match self.peek()? {
            b'i' => return self.integer().map(Some),
            b'd' if depth < 32 => self.dict(depth + 1, inside)?,
            b'l' if depth < 32 => {
                self.at += 1;
                while self.peek()? != b'e' {
                    self.value(depth + 1, Inside::Other)?;
                }
                self.at += 1;
            }
            _ => _ = self.string()?,
        }
        Ok(None)
    }

    fn string(&mut self) -> Result<&'a [u8], usize> {
        let start = self.at;
        let mut length = 0;
        loop {
            match self.peek()? {
                b':' if self.at > start => break,
                digit @ b'0'..=b'9' if self.at == start || length > 0 => {
                    length = length * 10 + usize::from(digit - b'0');
                    if length > 1 << 20 {
                        return Err(self.at);
                    }
                }
                _ => return Err(self.at),
            }
            self.at += 1;
        }
        let from = self.at + 1;
        let text = self
            .bytes
            .get(from..from + length)
            .ok_or(self.bytes.len())?;
        self.at = from + length;
        Ok(text)
    }

    fn integer(&mut self) -> Result<i64, usize> {
        self.at += 1;
        let negative = self.peek()? == b'-';
        self.at += usize::from(negative);
        let start = self.at;
        let mut number = 0i64;
        loop {
            match self.peek()? {
                b'e' if self.at > start => break,
                b'0' if self.at == start && negative => return Err(self.at),
                digit @ b'0'..=b'9' if self.at == start || number != 0 => {
                    let digit = i64::from(digit - b'0');
                    let more = number
                        .checked_mul(10)
                        .and_then(|n| n.checked_add(if negative { -digit } else { digit }));
                    number = more.ok_or(self.at)?;
                }
                _ => return Err(self.at),
            }
            self.at += 1;
        }
        self.at += 1;
        Ok(number)
    }
}
