//! Streams read, judged and written again.
use bt::{Block, Config, End, Extended, Feed, Item, Message, Own, Reason, Refused, StreamError, WriteError, Writer};
use std::fmt::Debug;
use std::io::{self, ErrorKind, Read};

const EXAMPLES: [&str; 4] = ["first", "fetching", "serving", "downloading"];

fn example(name: &str) -> Vec<u8> {
    std::fs::read(format!("{}/../../examples/{name}.bin", env!("CARGO_MANIFEST_DIR"))).unwrap()
}

/// The items of a stream as text, then how it ends.
fn told<'a>(items: impl Iterator<Item = Result<Item<'a>, Refused>>) -> Vec<String> {
    items.map(|item| format!("{item:?}")).collect()
}

/// What a feed tells of a stream in chunks of these sizes, in turn.
fn fed(stream: &[u8], own: &Own, sizes: &[usize]) -> Vec<String> {
    let (mut feed, mut found, mut rest) = (Feed::new(own), Vec::new(), stream);
    for size in sizes.iter().cycle() {
        let (chunk, more) = rest.split_at((*size).min(rest.len()));
        found.extend(told(feed.push(chunk)));
        if found.last().is_some_and(|it| it.starts_with("Err")) {
            return found;
        }
        rest = more;
        if rest.is_empty() {
            break;
        }
    }
    found.extend(told(feed.finish()));
    found
}

/// A source that gives chunks of these sizes, in turn.
struct Chunks<'a> {
    rest: &'a [u8],
    sizes: std::iter::Cycle<std::slice::Iter<'a, usize>>,
}

impl Read for Chunks<'_> {
    fn read(&mut self, to: &mut [u8]) -> io::Result<usize> {
        let n = self.sizes.next().copied().unwrap_or(1).min(to.len());
        self.rest.read(&mut to[..n])
    }
}

/// What a stream of a source tells of these bytes in chunks of these sizes, in turn.
fn streamed(bytes: &[u8], own: &Own, sizes: &[usize]) -> Vec<String> {
    let (mut stream, mut found) = (bt::stream(Chunks { rest: bytes, sizes: sizes.iter().cycle() }, own), Vec::new());
    loop {
        match stream.next() {
            Ok(Some(item)) => found.push(format!("{:?}", Ok::<_, Refused>(item))),
            Ok(None) => return found,
            Err(StreamError::Refused(refused)) => {
                found.push(format!("{:?}", Err::<Item<'_>, _>(refused)));
                assert!(matches!(stream.next(), Err(StreamError::Refused(again)) if again == refused));
                return found;
            }
            Err(other) => panic!("{other}"),
        }
    }
}

#[test]
fn first() {
    let bytes = example("first");
    let found: Vec<_> = bt::read(&bytes, &Own::default()).map(Result::unwrap).collect();
    let (info_hash, peer_id) = (bytes[28..48].try_into().unwrap(), bytes[48..68].try_into().unwrap());
    assert_eq!(found[0].message, Message::Handshake { reserved: 0x10_0005, info_hash, peer_id });
    assert_eq!(found[1], Item { start: 68, data: &[0; 4], message: Message::KeepAlive });
    assert_eq!((found[2].start, found[2].message, found[2].name()), (72, Message::Have(9), "have"));
    assert_eq!(bt::check(&bytes, &Own::default()), Ok(2));
    let strict = Own { strict: true, ..Own::default() };
    let refused = Refused { message: 2, at: 76, reason: Reason::Missing };
    assert_eq!(bt::check(&bytes, &strict), Err(refused));
    assert_eq!(bt::read(&bytes, &strict).last(), Some(Err(refused)));
    assert_eq!(refused.to_string(), "message 2 refused at byte 76: Missing");
}

#[test]
fn a_feed_tells_what_read_tells() {
    for name in EXAMPLES {
        let whole = example(name);
        let mut state = 18u64;
        for round in 0..400 {
            state = state.wrapping_mul(6_364_136_223_846_793_005).wrapping_add(1_442_695_040_888_963_407);
            let mut bytes = whole[..(state >> 33) as usize % (whole.len() + 1)].to_vec();
            if round % 2 == 0 && !bytes.is_empty() {
                let at = (state >> 20) as usize % bytes.len().min(400);
                bytes[at] = (state >> 8) as u8;
            }
            let own = Own { strict: round % 3 == 0, pieces: (round % 5 == 0).then_some(38), ..Own::default() };
            let wanted = told(bt::read(&bytes, &own));
            let sizes = [1, 4, 9, 700, 20_000];
            assert_eq!(fed(&bytes, &own, &sizes), wanted, "{name}, round {round}");
            assert_eq!(streamed(&bytes, &own, &sizes), wanted, "{name}, round {round}");
            let verdict = bt::check(&bytes, &own).map(|messages| messages as usize + 1);
            let refused = wanted.last().filter(|it| it.starts_with("Err"));
            assert_eq!(verdict.ok(), refused.is_none().then_some(wanted.len()));
        }
    }
}

/// A message of 1,000,005 bytes, which is longer than what a source is asked for at once.
#[test]
fn a_long_message_of_a_source() {
    let mut bytes = bt::handshake(0, [7; 20], [1; 20]).to_vec();
    bytes.extend(1_000_001_u32.to_be_bytes());
    bytes.push(5);
    bytes.extend(vec![0x80; 1_000_000]);
    bytes.extend([0; 4]);
    let own = Own { limit: 1_048_576, ..Own::default() };
    for sizes in [&[70_000][..], &[1, 65_536]] {
        assert_eq!(streamed(&bytes, &own, sizes), told(bt::read(&bytes, &own)));
    }
    assert_eq!(bt::check(&bytes, &own), Ok(2));
}

/// A source that fails before each chunk: it was interrupted, and has nothing yet.
struct Failing<'a>(u32, Chunks<'a>);

impl Read for Failing<'_> {
    fn read(&mut self, to: &mut [u8]) -> io::Result<usize> {
        self.0 += 1;
        match self.0 % 3 {
            1 => Err(ErrorKind::Interrupted.into()),
            2 => Err(ErrorKind::WouldBlock.into()),
            _ => self.1.read(to),
        }
    }
}

#[test]
fn a_source_that_fails_is_asked_again() {
    let (bytes, mut items, mut failures) = (example("first"), 0, 0);
    let mut stream = bt::stream(Failing(0, Chunks { rest: &bytes, sizes: [40].iter().cycle() }), &Own::default());
    loop {
        match stream.next() {
            Ok(Some(_)) => items += 1,
            Ok(None) => break,
            Err(StreamError::Io(error)) if error.kind() == ErrorKind::WouldBlock => failures += 1,
            Err(other) => panic!("{other}"),
        }
    }
    // (40, 40, 1 and the end)
    assert_eq!((items, failures, stream.start()), (3, 4, 81));
    assert!(stream.next().unwrap().is_none());
}

#[test]
fn debug_is_short() {
    fn is_short(value: impl Debug, wanted: &str) {
        let found = format!("{value:?}");
        assert!(found.starts_with(wanted) && found.ends_with(" .. }") && found.len() < 300, "{found}");
    }
    let (own, bytes) = (Own { info_hash: Some([7; 20]), ..Own::default() }, vec![0; 1_000_000]);
    let mut feed = Feed::new(&Own::default());
    is_short(bt::read(&bytes, &own), "Items { start: 0, left: 1000000,");
    is_short(feed.push(&bytes), "FeedItems { start: 0, left: 1000000,");
    is_short(feed, "Feed { start: 0, left: 1000000,");
    is_short(bt::stream(io::empty(), &own), "Stream { start: 0, left: 0,");
    is_short(Writer::new(&own, 0), "Writer { peer: Own {");
    is_short(End::new(&Config { own, ..Config::default() }).unwrap(), "End { own: Own {");
}

#[test]
fn what_is_left_of_an_iterator_comes_in_the_next() {
    let (bytes, mut feed) = (example("downloading"), Feed::new(&Own::default()));
    assert!(feed.push(&bytes).next().is_some());
    assert_eq!(feed.start(), 68);
    assert_eq!(feed.push(&[]).take(2).count(), 2);
    assert_eq!(feed.finish().map(Result::unwrap).count(), 81 - 3);
    assert!(feed.finish().next().is_none());
    assert_eq!(feed.start(), 1280);
}

#[test]
fn what_is_read_is_written_again() {
    for name in EXAMPLES {
        let bytes = example(name);
        let mut items = bt::read(&bytes, &Own::default()).map(Result::unwrap);
        let Message::Handshake { reserved, info_hash, peer_id } = items.next().unwrap().message else { panic!() };
        let mut out = bt::handshake(reserved, *info_hash, *peer_id).to_vec();
        let mut writer = Writer::new(&Own::default(), reserved);
        writer.set_peer(&Own { metadata_id: 3, ..writer.peer() });
        for item in items {
            writer.write(&item.message, &mut out).unwrap();
        }
        assert_eq!(out, bytes, "{name}");
    }
}

/// Rows by BEP 3, BEP 9 and BEP 10.
#[test]
fn written() {
    let own = Own { pieces: Some(8), strict: true, ..Own::default() };
    let (mut writer, mut out) = (Writer::new(&own, bt::EXTENSIONS), Vec::new());
    assert_eq!(writer.metadata_request(0, &mut out), Err(WriteError::NoMetadataId));
    writer.extended_handshake(3, Some(100), &mut out).unwrap();
    writer.write(&Message::Bitfield(&[0x80]), &mut out).unwrap();
    writer.write(&Message::Request(Block { index: 7, begin: 16384, length: 1 }), &mut out).unwrap();
    writer.write(&Message::Piece { index: 1, begin: 2, block: b"ab" }, &mut out).unwrap();
    writer.write(&Message::Port(6881), &mut out).unwrap();
    let mut wanted = b"\0\0\0\x2f\x14\0d1:md11:ut_metadatai3ee13:metadata_sizei100ee".to_vec();
    wanted.extend(
        b"\0\0\0\x02\x05\x80\0\0\0\x0d\x06\0\0\0\x07\0\0\x40\0\0\0\0\x01\0\0\0\x0b\x07\0\0\0\x01\0\0\0\x02ab\0\0\0\x03\x09\x1a\xe1",
    );
    assert_eq!(out, wanted);

    let mut said = bt::handshake(bt::EXTENSIONS, [7; 20], *b"-XX0001-000000000000").to_vec();
    said.extend(b"\0\0\0\x1a\x14\0d1:md11:ut_metadatai7eee");
    for item in bt::read(&said, &own) {
        writer.hear(&item.unwrap());
    }
    out.clear();
    writer.metadata_request(0, &mut out).unwrap();
    writer.metadata_data(0, 2, b"hi", &mut out).unwrap();
    let mut wanted = b"\0\0\0\x1b\x14\x07d8:msg_typei0e5:piecei0ee".to_vec();
    wanted.extend(b"\0\0\0\x2d\x14\x07d8:msg_typei1e5:piecei0e10:total_sizei2eehi");
    assert_eq!(out, wanted);
}

#[test]
fn not_written() {
    let own = Own { pieces: Some(8), strict: true, ..Own::default() };
    let (mut writer, mut out) = (Writer::new(&own, bt::EXTENSIONS), Vec::new());
    writer.set_peer(&Own { metadata_id: 7, ..writer.peer() });
    writer.write(&Message::Bitfield(&[0]), &mut out).unwrap();
    out.clear();
    let extended = Message::Extended { id: 7, payload: b"x", extended: Extended::Raw };
    let rows = [
        (Message::Have(8), Reason::BadIndex),
        (Message::HaveAll, Reason::NotNegotiated),
        (Message::Bitfield(&[0]), Reason::Late),
        (Message::Unknown { id: 99, payload: &[] }, Reason::UnknownId),
        (extended, Reason::BadBencode),
    ];
    for (message, reason) in rows {
        match writer.write(&message, &mut out) {
            Err(WriteError::Refused(refused)) => assert_eq!((refused.reason, refused.message), (reason, 2)),
            other => panic!("{message:?}: {other:?}"),
        }
    }
    let Err(WriteError::Refused(refused)) = writer.metadata_data(0, 2, b"h", &mut out) else { panic!() };
    assert_eq!(refused.reason, Reason::BadBlock);
    assert_eq!(writer.metadata_data(0, 1 << 63, b"h", &mut out), Err(WriteError::BadTotalSize));
    let greeting = Message::Handshake { reserved: 0, info_hash: &[0; 20], peer_id: &[0; 20] };
    assert_eq!(writer.write(&greeting, &mut out), Err(WriteError::NoMessage));
    assert!(out.is_empty());
}
