//! Writes a made waveform file to standard output, of which `plot` can draw a strip.

mod made;

use std::io::{self, Write};

fn main() -> io::Result<()> {
    io::stdout().write_all(&made::file())
}
