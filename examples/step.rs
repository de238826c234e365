//! The smallest program in Rust; it does just what `step.c` does. It reads a sheet of settings from standard input, makes
//! a fresh board and steps it three times.
//!
//! ```text
//! tools/staticlib.sh
//! rustc -O --edition 2021 examples/step.rs -L target/staticlib -o step
//! ./step < examples/listing.in
//! ```

#[allow(dead_code)]
#[path = "../include/saltdelta.rs"]
mod saltdelta;

use std::io::Read;

fn main() -> std::io::Result<()> {
    let mut text = Vec::new();
    std::io::stdin().read_to_end(&mut text)?;
    let mut sample = [1000, 1000, 1000, 60000, 1, 10000, 10000]; // codes, mHz, permission, available, limit
    let mut settings = saltdelta::Settings::default();
    let mut report = saltdelta::fresh_report();
    let mut board = saltdelta::fresh();
    let sheet = saltdelta::read_sheet(&mut settings, &text);
    if sheet.number != saltdelta::ACCEPTED {
        println!("sheet line {}: refused {}", sheet.line, sheet.number);
        std::process::exit(1);
    }
    for step in 1..=3 {
        sample[4] = u32::from(step < 3); // permission is withdrawn at the third step
        if saltdelta::step(&mut board, &settings, &sample, &mut report) == saltdelta::ACCEPTED {
            println!("step {step}: status {}, watts {}", report.status, report.watts);
        }
    }
    Ok(())
}
