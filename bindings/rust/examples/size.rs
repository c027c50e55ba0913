//! Sizes the job in a file and prints the least delay, and lean and wide at each place.
use numlejka::{size, Reply};
use std::process::ExitCode;

fn main() -> ExitCode {
    let Some(name) = std::env::args().nth(1) else {
        eprintln!("usage: size JOB");
        return ExitCode::from(2);
    };
    let job = match std::fs::read(&name) {
        Ok(job) => job,
        Err(error) => {
            eprintln!("cannot read {name}: {error}");
            return ExitCode::from(2);
        }
    };
    match size(&job) {
        Reply::Finished { delay, places } => {
            println!("delay {delay}");
            for (at, place) in places.iter().enumerate() {
                println!("place {at} lean {} wide {}", place.lean, place.wide);
            }
            ExitCode::SUCCESS
        }
        Reply::BoundsOnly(_) => {
            println!("refused 14");
            ExitCode::FAILURE
        }
        Reply::Refused(refusal) => {
            println!("refused {}", refusal.number);
            ExitCode::FAILURE
        }
    }
}
