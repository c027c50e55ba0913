//! Writes the worked jobs and the clock net as job files into a folder.

use std::path::PathBuf;

use numlejka_tests::worked::{clock, named};

/// Writes each job to its own file.
fn main() -> std::io::Result<()> {
    let folder = PathBuf::from(std::env::args().nth(1).expect("usage: jobs FOLDER"));
    std::fs::create_dir_all(&folder)?;
    for (name, plan) in named().into_iter().chain([("clock", clock())]) {
        std::fs::write(folder.join(format!("{name}.job")), plan.bytes())?;
    }
    Ok(())
}
