//! reference_calls < NAME.in: the transcript that is expected, made by the reference (see `transcript`).

use reading::calls::Reference;
use reading::transcript::transcript;
use std::io::{self, Read};

fn main() -> io::Result<()> {
    let mut lines = String::new();
    io::stdin().read_to_string(&mut lines)?;
    transcript(&Reference, &lines).iter().for_each(|line| println!("{line}"));
    Ok(())
}
