//! Measures a sizing of the job on standard input, an index a word, and prints its scaled delay and its load figure.
use numlejka::measure;
use std::io::Read;
use std::process::ExitCode;

fn main() -> ExitCode {
    let Ok(sizing) = std::env::args()
        .skip(1)
        .map(|word| word.parse())
        .collect::<Result<Vec<u8>, _>>()
    else {
        eprintln!("usage: measure INDEX.. <JOB");
        return ExitCode::from(2);
    };
    let mut job = Vec::new();
    if let Err(error) = std::io::stdin().read_to_end(&mut job) {
        eprintln!("standard input: {error}");
        return ExitCode::from(2);
    }
    match measure(&job, &sizing) {
        Ok(figures) => {
            println!("delay {}\nload {}", figures.delay, figures.load);
            ExitCode::SUCCESS
        }
        Err(refusal) => {
            println!("refused {}", refusal.number);
            ExitCode::FAILURE
        }
    }
}
