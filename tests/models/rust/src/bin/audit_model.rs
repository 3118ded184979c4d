//! Audits a log on standard input with the model and prints its verdict.

use std::io::{self, Read};

fn main() -> io::Result<()> {
    let mut log = Vec::new();
    io::stdin().lock().read_to_end(&mut log)?;
    println!("{}", model::log::verdict(&log));
    Ok(())
}
