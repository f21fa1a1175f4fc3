//! Prints the messages of the stream on standard input.
use std::io::Read;

fn main() -> Result<(), Box<dyn std::error::Error>> {
    let mut bytes = Vec::new();
    std::io::stdin().read_to_end(&mut bytes)?;
    for item in bt::read(&bytes, &bt::Own::default()) {
        let item = item?;
        println!("{} {}", item.start, item.name());
    }
    Ok(())
}
