//! The check program over the baseline, for the benchmark to run beside the proved one: reads an
//! image from standard input and prints its report.

use std::io::{self, Read, Write};
use std::process::ExitCode;

use refile_bench::baseline::Baseline;
use refile_model::layout::IMAGE_MOST;
use refile_model::model::REPORT_MOST;
use refile_model::Replica;

/// One byte more than the largest image; no more is read.
const READ_MOST: usize = IMAGE_MOST + 1;

fn main() -> ExitCode {
    match check() {
        Ok(accepted) => ExitCode::from(if accepted { 0 } else { 1 }),
        Err(error) => {
            eprintln!("check_baseline: {error}");
            ExitCode::from(2)
        }
    }
}

/// Answers whether the image was accepted.
fn check() -> io::Result<bool> {
    let mut image = Vec::with_capacity(READ_MOST);
    io::stdin()
        .lock()
        .take(READ_MOST as u64)
        .read_to_end(&mut image)?;
    let mut text = [0; REPORT_MOST];
    let length = Baseline::report(&image, &mut text).expect("no report is longer");
    let text = &text[..length as usize];
    io::stdout().write_all(text)?;
    Ok(!text.starts_with(b"refused"))
}
