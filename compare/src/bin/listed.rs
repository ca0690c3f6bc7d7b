//! The library's listing program against the independent one: what it writes
//! of an image on its standard input.

use compare::listing::{listing_up_to, MOST_BYTES};
use compare::piped;
use std::process::ExitCode;

const HELP: &str = "\
listed [--seed N] [--count N] [--most BYTES] -- COMMAND..

Runs COMMAND once for each image, the samples, the small ones also with the
version digit at 79 as before request 2026-02, and those of so many drawn
cases, and compares what it writes; images over so many bytes are too long for
it. The last line is 'N passed, M failed'.
";

fn main() -> ExitCode {
    let most = [("most", MOST_BYTES as u64)];
    piped::compared(HELP, &most, |options, image| {
        listing_up_to(options.count("most"), image)
    })
}
