//! Writes the crate's recorded answers to standard output, and after them some that are altered.

use std::io::{stdout, BufWriter, Write};

use compare::record::{altered, end, inputs, line};

fn main() -> std::io::Result<()> {
    let mut out = BufWriter::new(stdout().lock());
    let inputs = inputs();
    for input in &inputs {
        writeln!(out, "{}", line(input))?;
    }
    writeln!(out, "{}", end())?;
    let altered = altered(&inputs);
    for line in &altered {
        writeln!(out, "{line}")?;
    }
    writeln!(out, "{}", end())?;
    eprintln!("{} records, {} altered", inputs.len(), altered.len());
    out.flush()
}
