//! The script program: a script on standard input, its lines on standard output.

use std::io::{self, Read, Write};

fn main() -> io::Result<()> {
    let mut script = Vec::new();
    let most = model::script::LONGEST as u64;
    io::stdin().lock().take(most).read_to_end(&mut script)?;
    io::stdout().write_all(&model::script::run(&script).print())
}
