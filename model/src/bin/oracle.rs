//! Reads requests on standard input and writes an answer line for each; see `vectors/README.md`.

use std::io::{self, BufRead, BufWriter, Write};
use umarekoza_model::protocol::answer;

fn main() -> io::Result<()> {
    let mut output = BufWriter::new(io::stdout().lock());
    for request in io::stdin().lock().lines() {
        writeln!(output, "{}", answer(&request?))?;
    }
    output.flush()
}
