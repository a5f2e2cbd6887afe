//! Stands in for a program where only the checker itself is tried: the model's
//! answer to the whole standard input, and what it says of it. Its own name, a
//! link's or a copy's, tells which program: `rule`, `why`, `longest`, `watch`,
//! or else `judge`.

#![forbid(unsafe_code)]

use std::env;
use std::io::{self, Read, Write};
use std::path::Path;

use reference::model::{longest_program, program, program_says, rule_program, watching, why};

fn main() -> io::Result<()> {
    let mut input = Vec::new();
    io::stdin().read_to_end(&mut input)?;
    let called = env::args().next().unwrap_or_default();
    let name = Path::new(&called).file_name().and_then(|name| name.to_str());
    let (output, errors) = match name {
        Some("rule") => (rule_program(&input), Vec::new()),
        Some("longest") => (longest_program(&input), Vec::new()),
        Some("watch") => (watching::program(&input), Vec::new()),
        Some("why") => (why::program(&input), why::says(&input)),
        _ => (program(&input), program_says(&input)),
    };
    io::stdout().write_all(&output)?;
    io::stderr().write_all(&errors)
}
