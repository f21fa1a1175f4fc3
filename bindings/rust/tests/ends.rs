//! Ends of connections, and fetches.
use bt::{Announce, Block, Config, End, EndError, Event, Extended, FetchError, Item, Message, Own, Progress, Reason, Role};
use std::io::{Read, Write};
use std::net::{SocketAddr, TcpListener};
use std::thread::{self, JoinHandle};
use std::time::Duration;

/// The SHA-1 of `abc` (FIPS 180-4).
const ABC: [u8; 20] = *b"\xa9\x99\x3e\x36\x47\x06\x81\x6a\xba\x3e\x25\x71\x78\x50\xc2\x6c\x9c\xd0\xd8\x9d";
/// The SHA-1 of 1,000,000 bytes `a` (FIPS 180-4), which make 62 blocks.
const MILLION: [u8; 20] = *b"\x34\xaa\x97\x3c\xd4\xc4\xda\xa4\xf6\x1e\xeb\x2b\xdb\xad\x27\x31\x65\x34\x01\x6f";

fn own(info_hash: [u8; 20]) -> Own {
    Own { info_hash: Some(info_hash), ..Own::default() }
}

fn end(own: Own, role: Role<'_>) -> End {
    End::new(&Config { own, role, ..Config::default() }).unwrap()
}

/// An item and what it made of an end, as text.
fn told(item: &Item<'_>) -> String {
    format!("{item:?}")
}

/// Moves what waits to the other end in chunks of this size, and returns the items and events that it heard, and the bytes.
fn turn(from: &mut End, to: &mut End, size: usize) -> (Vec<(String, Event)>, Vec<u8>) {
    let (bytes, mut heard) = (from.outgoing(), Vec::new());
    from.sent(bytes.len());
    for mut chunk in bytes.chunks(size) {
        while let Some(it) = to.next(&mut chunk).unwrap() {
            heard.push((told(&it.item), it.event));
        }
        assert!(chunk.is_empty());
    }
    (heard, bytes)
}

#[test]
fn two_ends() {
    let metadata = vec![b'a'; 1_000_000];
    for size in [65_536, 1000, 7] {
        let (mut one, mut two) = (end(own(MILLION), Role::Fetch(None)), end(own(MILLION), Role::Serve(&metadata)));
        assert_eq!((one.progress(), one.metadata(), one.is_hopeless()), (None, None, false));
        let (mut events, mut items, mut stream) = (Vec::new(), Vec::new(), Vec::new());
        while one.metadata().is_none() {
            turn(&mut one, &mut two, size);
            let (heard, bytes) = turn(&mut two, &mut one, size);
            assert!(!bytes.is_empty());
            stream.extend(bytes);
            for (item, event) in heard {
                items.push(item);
                events.push(event);
            }
        }
        assert_eq!(one.metadata().as_deref(), Some(&metadata[..]));
        assert_eq!((one.progress(), one.mismatches()), (Some(Progress { size: 1_000_000, blocks: 62, held: 62 }), 0));
        let wanted: Vec<_> = bt::read(&stream, &own(MILLION)).map(|item| told(&item.unwrap())).collect();
        assert_eq!(items, wanted);
        events.retain(|it| *it != Event::Other);
        assert_eq!(events[..2], [Event::Opened, Event::Announced { id: Some(3), size: Some(1_000_000), begins: true }]);
        assert!(events[2..63].iter().all(|it| matches!(it, Event::Block(_))));
        assert_eq!(events[63..], [Event::Fetched]);
    }
}

#[test]
fn say() {
    let own = Own { pieces: Some(9), ..own(ABC) };
    let (mut one, mut two) = (end(own, Role::Watch), end(own, Role::Watch));
    assert_eq!(one.say(&Message::Unchoke), Err(EndError::NotOpen));
    turn(&mut one, &mut two, 9);
    turn(&mut two, &mut one, 9);
    turn(&mut one, &mut two, 9);
    let block = Block { index: 1, begin: 2, length: 3 };
    let piece = Message::Piece { index: 1, begin: 2, block: b"abc" };
    for message in [Message::Have(8), Message::Request(block), piece, Message::Port(6881)] {
        one.say(&message).unwrap();
    }
    let (heard, bytes) = turn(&mut one, &mut two, 5);
    let events: Vec<_> = heard.iter().map(|it| it.1).collect();
    assert_eq!(events, [Event::Other, Event::Requested, Event::Piece, Event::Other]);
    assert_eq!(bytes[..9], *b"\0\0\0\x05\x04\0\0\0\x08");
    assert_eq!(one.say(&Message::Have(9)), Err(EndError::Illegal));
    let greeting = Message::Handshake { reserved: 0, info_hash: &[0; 20], peer_id: &[0; 20] };
    assert_eq!(one.say(&greeting), Err(EndError::NotSaid));
    let raw = Message::Extended { id: 1, payload: b"", extended: Extended::Raw };
    assert_eq!(one.say(&raw), Err(EndError::NotSaid));
}

#[test]
fn refused() {
    let mut end = end(own(ABC), Role::Fetch(Some(3)));
    for mut bytes in [&b"\x13BitTorrent protocoX"[..], b"", b"x"] {
        let Err(EndError::Refused(refused)) = end.next(&mut bytes) else { panic!() };
        assert_eq!((refused.message, refused.at, refused.reason), (0, 19, Reason::BadProtocol));
    }
    end.reset().unwrap();
    let hello = bt::handshake(0, ABC, [1; 20]);
    let heard = end.next(&mut &hello[..]).unwrap().unwrap();
    assert_eq!((heard.item.data, heard.event), (&hello[..], Event::Opened));
    assert_eq!(end.begin(1 << 40), Err(EndError::NotBegun));
}

#[test]
fn not_made() {
    let make = |own, role| End::new(&Config { own, role, announce: Announce::Nothing, ..Config::default() }).err();
    assert_eq!(make(Own::default(), Role::Watch), Some(EndError::NoInfoHash));
    assert_eq!(make(Own { limit: 32_767, ..own(ABC) }, Role::Watch), Some(EndError::BadLimit));
    assert_eq!(make(own(ABC), Role::Serve(b"")), Some(EndError::BadSize));
    assert_eq!(make(own(ABC), Role::Serve(b"abc")), None);
}

/// A peer that serves metadata over TCP, up to so many bytes of its stream.
fn serving(metadata: &'static [u8], info_hash: [u8; 20], most: usize) -> (SocketAddr, JoinHandle<()>) {
    let listener = TcpListener::bind("127.0.0.1:0").unwrap();
    let address = listener.local_addr().unwrap();
    let run = move || {
        let (mut stream, mut end) = (listener.accept().unwrap().0, end(own(info_hash), Role::Serve(metadata)));
        let (mut buffer, mut left) = ([0; 1000], most);
        loop {
            let waiting = end.outgoing();
            let n = waiting.len().min(left);
            left -= n;
            end.sent(waiting.len());
            if stream.write_all(&waiting[..n]).is_err() || left == 0 {
                return;
            }
            let n = stream.read(&mut buffer).unwrap_or(0);
            let mut bytes = &buffer[..n];
            while let Ok(Some(_)) = end.next(&mut bytes) {}
            if bytes.is_empty() && n > 0 {
                continue;
            }
            return;
        }
    };
    (address, thread::spawn(run))
}

#[test]
fn fetched() {
    let second = Duration::from_secs(10);
    let (peer, thread) = serving(b"abc", ABC, usize::MAX);
    assert_eq!(bt::fetch(peer, ABC, None, second).unwrap(), b"abc");
    thread.join().unwrap();
    let (peer, thread) = serving(b"abc", ABC, usize::MAX);
    assert_eq!(bt::fetch(format!("localhost:{}", peer.port()), ABC, None, second).unwrap(), b"abc");
    thread.join().unwrap();
    assert!(matches!(bt::fetch("localhost", ABC, None, second), Err(FetchError::Io(_))));
    let (peer, thread) = serving(b"abd", ABC, usize::MAX);
    assert!(matches!(bt::fetch(peer, ABC, None, second), Err(FetchError::OtherMetadata)));
    thread.join().unwrap();
    let (peer, thread) = serving(b"abc", ABC, usize::MAX);
    assert!(matches!(bt::fetch(peer, ABC, Some(2), second), Err(FetchError::BadSize(3))));
    thread.join().unwrap();
    let (peer, thread) = serving(b"abc", MILLION, usize::MAX);
    assert!(matches!(bt::fetch(peer, ABC, None, second), Err(FetchError::Refused(_))));
    thread.join().unwrap();
    let (peer, thread) = serving(b"abc", ABC, 100);
    assert!(matches!(bt::fetch(peer, ABC, None, second), Err(FetchError::Closed | FetchError::Io(_))));
    thread.join().unwrap();
    let silent = TcpListener::bind("127.0.0.1:0").unwrap();
    let peer = silent.local_addr().unwrap();
    assert!(matches!(bt::fetch(peer, ABC, None, Duration::from_millis(300)), Err(FetchError::TimedOut)));
    drop(silent);
    assert!(matches!(bt::fetch(peer, ABC, None, second), Err(FetchError::Io(_))));
}
