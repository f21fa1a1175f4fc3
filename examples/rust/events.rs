//! Prints the events of an end that fetches, by what peers sent, and its answers. usage: events INFO-HASH FILE..
use bt::{Config, End, EndError, Event, Own, Role};
use std::error::Error;

fn hex(bytes: &[u8]) -> String {
    bytes.iter().map(|byte| format!("{byte:02x}")).collect()
}

/// The name of an event, and a line's words after that.
fn words(event: &Event) -> (&'static str, String) {
    match event {
        Event::Opened => ("OPENED", String::new()),
        Event::Announced { id, size, begins } => {
            let (id, size) = (id.map(|it| format!(" {it}")), size.map(|it| format!(" {it}")));
            let begins = if *begins { " begins" } else { "" };
            ("ANNOUNCED", format!("{}{}{begins}", id.unwrap_or_default(), size.unwrap_or_default()))
        }
        Event::Block(piece) => ("BLOCK", format!(" {piece}")),
        Event::Rejected(piece) => ("REJECTED", format!(" {piece}")),
        Event::Fetched => ("FETCHED", String::new()),
        Event::Mismatched => ("MISMATCHED", String::new()),
        Event::Served(piece) => ("SERVED", format!(" {piece}")),
        Event::Declined(piece) => ("DECLINED", format!(" {piece}")),
        Event::Requested => ("REQUESTED", String::new()),
        Event::Piece => ("PIECE", String::new()),
        _ => ("OTHER", String::new()),
    }
}

/// Prints what is heard in some bytes.
fn receive(end: &mut End, mut bytes: &[u8]) -> Result<(), EndError> {
    while let Some(heard) = end.next(&mut bytes)? {
        let (name, more) = words(&heard.event);
        println!("{} {} {name} {}{more}", heard.item.start, heard.item.name(), heard.item.data.len());
    }
    Ok(())
}

fn main() -> Result<(), Box<dyn Error>> {
    let words: Vec<String> = std::env::args().skip(1).collect();
    let (digits, files) = words.split_first().ok_or("usage: events INFO-HASH FILE..")?;
    let info_hash = std::array::from_fn(|k| u8::from_str_radix(&digits[2 * k..2 * k + 2], 16).expect("hex digits"));
    let size = std::env::var("PIECE").map_or(Ok(65_536), |it| it.parse())?;
    for file in files {
        let own = Own { info_hash: Some(info_hash), ..Own::default() };
        let mut end = End::new(&Config { own, role: Role::Fetch(None), ..Config::default() })?;
        match std::fs::read(file)?.chunks(size).try_for_each(|chunk| receive(&mut end, chunk)) {
            Err(EndError::Refused(it)) => println!("refused message={} at={} {}", it.message, it.at, it.reason),
            ended => ended?,
        }
        let size = end.metadata().map_or(0, |it| it.len());
        println!("metadata {size}, hopeless {}, mismatches {}", u8::from(end.is_hopeless()), end.mismatches());
        println!("answers {}", hex(&end.outgoing()[68..]));
    }
    Ok(())
}
