//! The program `dayline` over the reference: standard input to standard output.

use reading::dayline::DayLines;
use std::io::{self, Read, Write};

fn main() -> io::Result<()> {
    let mut lines = DayLines::default();
    let mut piece = [0; 65536];
    loop {
        match io::stdin().lock().read(&mut piece)? {
            0 => break,
            len => lines.feed(&piece[..len]),
        }
    }
    io::stdout().write_all(lines.finish().as_bytes())
}
