//! The player as a program: a session file on standard input, its lines on
//! standard output. With the word `trusting` it tests the table no more
//! after set-up.

use reference::{play_in, Mode};
use std::io::{self, Read, Write};

fn main() -> io::Result<()> {
    let trusting = std::env::args().nth(1).as_deref() == Some("trusting");
    let mode = if trusting {
        Mode::Trusting
    } else {
        Mode::Checked
    };
    let mut session = Vec::new();
    io::stdin().lock().read_to_end(&mut session)?;
    io::stdout().lock().write_all(&play_in(&session, mode))
}
