//! Answers a peer: a handshake, an extended handshake, a request for the metadata's first block. usage: write <STREAM >ANSWER
use bt::{Extended, Message, Own, Writer};
use std::error::Error;
use std::io::{stdin, stdout, Write};

/// Adds what is sent after a message of the peer. The writer is made of the peer's handshake, and judges as that peer does.
fn answer(item: &bt::Item<'_>, own: &Own, writer: &mut Option<Writer>, to: &mut Vec<u8>) -> Result<(), bt::WriteError> {
    match (&item.message, writer) {
        (&Message::Handshake { reserved, info_hash, .. }, writer) => {
            to.extend(bt::handshake(own.reserved, *info_hash, *b"-XX0001-writewritewr"));
            let writer = writer.insert(Writer::new(own, reserved));
            if reserved & bt::EXTENSIONS != 0 {
                writer.extended_handshake(own.metadata_id, None, to)?;
            }
        }
        (Message::Extended { extended: Extended::Handshake { ut_metadata: Some(1..), .. }, .. }, Some(writer)) => {
            writer.hear(item);
            writer.metadata_request(0, to)?;
        }
        _ => {}
    }
    Ok(())
}

fn main() -> Result<(), Box<dyn Error>> {
    let own = Own::default();
    let (mut items, mut writer, mut out) = (bt::stream(stdin().lock(), &own), None, Vec::new());
    while let Some(item) = items.next()? {
        answer(&item, &own, &mut writer, &mut out)?;
        stdout().write_all(&out)?;
        out.clear();
    }
    Ok(())
}
