//! The programs, run on the worked jobs and others, against what the reference says that they write; and what they do where reading or
//! writing fails.
#![cfg(feature = "library")]

use std::fs::File;
use std::io::{Read, Write};
use std::os::fd::OwnedFd;
use std::os::unix::net::UnixStream;
use std::path::PathBuf;
use std::process::{Command, Output, Stdio};

use numlejka_tests::batches::{job_of, largest_weighed_calls};
use numlejka_tests::limits::largest_plans;
use numlejka_tests::questions::{self, MOST_PLACES};
use numlejka_tests::reference;
use numlejka_tests::reference_bounds::way_for;
use numlejka_tests::worked;

/// The repository's top folder.
fn top() -> PathBuf {
    PathBuf::from(env!("CARGO_MANIFEST_DIR")).join("..")
}

/// The programs.
const PROGRAMS: [&str; 2] = ["sizer", "sizer_reply"];

/// Where `rt run` leaves a program.
fn built(name: &str) -> PathBuf {
    top().join("crates").join(name).join("out").join(name)
}

/// A program, not yet started.
fn program(name: &str) -> Command {
    Command::new(built(name))
}

/// Runs a program on a job.
fn run(name: &str, job: &[u8]) -> Output {
    let mut child = program(name)
        .stdin(Stdio::piped())
        .stdout(Stdio::piped())
        .stderr(Stdio::piped())
        .spawn()
        .expect("the program is built");
    let mut input = child.stdin.take().expect("its input is piped");
    // A program that has read enough may close its input early.
    let _ = input.write_all(job);
    drop(input);
    child.wait_with_output().expect("the program ends")
}

/// The number and the reply of a job, by the reference.
fn reply(job: &[u8]) -> (u64, Vec<u8>) {
    let mut buffer = vec![0; 8 * (1 + MOST_PLACES)];
    let number = reference::size(job, &mut buffer, way_for(job));
    if number == 0 || number == 14 {
        let net = questions::read(job).expect("an answered job passes");
        buffer.truncate(8 * (1 + net.places()));
    } else {
        buffer.clear();
    }
    (number, buffer)
}

/// What the sizing program prints for a job.
fn printed(job: &[u8]) -> String {
    if job.len() > 65_536 {
        return "too long\n".to_string();
    }
    let (number, bytes) = reply(job);
    let mut text = match number {
        0 => {
            let delay = u64::from_le_bytes(bytes[..8].try_into().expect("eight bytes"));
            format!("answer 0\ndelay {delay}\n")
        }
        n => format!("refused {n}\n"),
    };
    if bytes.is_empty() {
        return text;
    }
    let kinds = [(3, "stage"), (4, "segment"), (5, "repeater")];
    let names = kinds.into_iter().flat_map(|(kind, name)| {
        let count = job.chunks(16).filter(|record| record[0] == kind).count();
        (0..count).map(move |at| format!("{name} {at}"))
    });
    for (place, record) in names.zip(bytes.chunks(8).skip(1)) {
        let found = if number == 0 {
            format!("{} {}", record[2], record[3])
        } else {
            "- -".to_string()
        };
        text += &format!("{place} {} {} {found}\n", record[0], record[1]);
    }
    text
}

/// The jobs: worked, refused, with repeaters, with weights, with as many places as there can be, at the limit of room, too long, and the
/// examples.
fn jobs() -> Vec<Vec<u8>> {
    let mut jobs: Vec<Vec<u8>> = worked::named().into_iter().map(|(_, plan)| plan.bytes()).collect();
    let behind = worked::with_repeaters().into_iter().chain(worked::with_weights());
    jobs.extend(behind.map(|plan| plan.bytes()));
    jobs.extend(worked::repeated().into_iter().chain(worked::weighed()).map(|(job, _)| job));
    let largest = largest_plans().into_iter().filter(|(_, plan)| plan.places() == MOST_PLACES);
    jobs.extend(largest.step_by(7).map(|(_, plan)| plan.bytes()));
    jobs.extend(largest_weighed_calls().iter().step_by(40).map(|call| job_of(call).to_vec()));
    jobs.push(worked::clock().bytes());
    jobs.push(worked::weightless(8).bytes());
    jobs.push(worked::weightless(9).bytes());
    jobs.extend(worked::refused().into_iter().map(|(job, _)| job));
    jobs.extend([vec![0; 65_536], vec![0; 65_537], vec![0; 70_000]]);
    for file in std::fs::read_dir(top().join("examples")).expect("the examples are there") {
        let path = file.expect("a readable folder").path();
        if path.extension().is_some_and(|end| end == "job") {
            jobs.push(std::fs::read(path).expect("a readable example"));
        }
    }
    jobs
}

#[test]
fn sizer_prints_what_the_reference_says() {
    for job in jobs() {
        let output = run("sizer", &job);
        assert_eq!(
            String::from_utf8_lossy(&output.stdout),
            printed(&job),
            "a job of {} bytes",
            job.len()
        );
        assert!(output.stderr.is_empty());
    }
}

#[test]
fn sizer_reply_writes_the_reply_or_a_line_on_standard_error() {
    for job in jobs() {
        let output = run("sizer_reply", &job);
        if job.len() > 65_536 {
            assert!(output.stdout.is_empty());
            assert_eq!(output.stderr, b"too long\n");
            continue;
        }
        let (number, bytes) = reply(&job);
        assert_eq!(output.stdout, bytes, "a job of {} bytes", job.len());
        let line = if number == 0 {
            String::new()
        } else {
            format!("refused {number}\n")
        };
        assert_eq!(String::from_utf8_lossy(&output.stderr), line);
    }
}

#[test]
fn a_repeater_has_its_line() {
    let output = run("sizer", &worked::tied_repeater().bytes());
    let lines = "answer 0\ndelay 2964\nstage 0 0 0 0 0\nsegment 0 0 0 0 0\nsegment 1 0 0 0 0\nrepeater 0 0 1 0 1\n";
    assert_eq!(String::from_utf8_lossy(&output.stdout), lines);
}

#[test]
fn a_weight_has_no_line() {
    let output = run("sizer", &worked::weighed_repeater().bytes());
    let lines = "answer 0\ndelay 1820\nstage 0 0 0 0 0\nsegment 0 0 0 0 0\nsegment 1 0 0 0 0\nrepeater 0 0 0 0 0\n";
    assert_eq!(String::from_utf8_lossy(&output.stdout), lines);
}

#[test]
fn j4_prints_its_five_lines() {
    let output = run("sizer", &worked::j4().bytes());
    let lines = "answer 0\ndelay 260\nstage 0 0 0 0 0\nstage 1 0 1 0 0\nsegment 0 0 1 0 0\n";
    assert_eq!(String::from_utf8_lossy(&output.stdout), lines);
}

/// J5 without its last segment: what is left is a job of its own, which is answered.
fn cut_off() -> Vec<u8> {
    let mut job = worked::j5().bytes();
    job.truncate(job.len() - 16);
    assert_eq!(reply(&job).0, 0);
    job
}

/// Nothing was written but one line on standard error, with the system's reason.
fn told(output: Output, line: &str) {
    assert_eq!(String::from_utf8_lossy(&output.stdout), "");
    assert_eq!(String::from_utf8_lossy(&output.stderr), format!("{line}\n"));
}

#[test]
fn a_folder_as_input_is_told() {
    for name in PROGRAMS {
        let folder = File::open(top()).expect("a folder opens");
        let output = program(name).stdin(folder).output().expect("the program ends");
        told(output, "standard input: Is a directory");
    }
}

#[test]
fn an_input_that_fails_between_two_records_is_not_taken_for_its_end() {
    for name in PROGRAMS {
        let (mut ours, mut theirs) = UnixStream::pair().expect("two ends");
        // An end that is closed with bytes unread resets the other, which can still read what came before.
        theirs.write_all(b"unread").expect("written");
        ours.write_all(&cut_off()).expect("written");
        drop(ours);
        let output = program(name).stdin(OwnedFd::from(theirs)).output().expect("the program ends");
        told(output, "standard input: Connection reset by peer");
    }
}

#[test]
fn a_writer_that_dies_ends_the_input() {
    let file = std::env::temp_dir().join(format!("numlejka-cut-{}", std::process::id()));
    std::fs::write(&file, cut_off()).expect("a file for the job");
    for name in PROGRAMS {
        let mut writer = Command::new("sh")
            .args(["-c", "cat \"$0\"; kill -9 $$"])
            .arg(&file)
            .stdout(Stdio::piped())
            .spawn()
            .expect("the writer starts");
        let pipe = writer.stdout.take().expect("its output is piped");
        let output = program(name).stdin(pipe).output().expect("the program ends");
        assert!(!writer.wait().expect("the writer ends").success());
        assert_eq!(output.stdout, run(name, &cut_off()).stdout);
        assert_ne!(output.stdout, b"");
        assert!(output.stderr.is_empty());
    }
    std::fs::remove_file(file).expect("the file goes");
}

#[test]
fn a_full_device_is_told() {
    let told = |name: &str, job: &[u8]| {
        let mut child = program(name)
            .stdin(Stdio::piped())
            .stdout(File::create("/dev/full").expect("the device opens"))
            .stderr(Stdio::piped())
            .spawn()
            .expect("the program starts");
        child.stdin.take().expect("piped").write_all(job).expect("written");
        let mut told = String::new();
        child.stderr.take().expect("piped").read_to_string(&mut told).expect("text");
        assert!(child.wait().expect("the program ends").success());
        told
    };
    let full = "standard output: No space left on device\n";
    for name in PROGRAMS {
        assert_eq!(told(name, &worked::j4().bytes()), full);
    }
    // The reply of bounds is lost, and 14 is told all the same.
    assert_eq!(
        told("sizer_reply", &worked::weightless(9).bytes()),
        format!("{full}refused 14\n")
    );
}

#[test]
fn a_closed_standard_output_and_a_closed_standard_input_are_told() {
    for name in PROGRAMS {
        let path = built(name);
        for (closed, line) in [
            (">&-", "standard output: Bad file descriptor"),
            ("<&-", "standard input: Bad file descriptor"),
        ] {
            let output = Command::new("sh")
                .arg("-c")
                .arg(format!("exec \"$0\" {closed}"))
                .arg(&path)
                .stdin(File::open(top().join("examples/j4.job")).expect("the example opens"))
                .output()
                .expect("the program ends");
            told(output, line);
        }
    }
}

#[test]
fn the_stored_vectors_are_what_the_reference_writes_today() {
    let folder = std::env::temp_dir().join(format!("numlejka-vectors-{}", std::process::id()));
    std::fs::create_dir_all(&folder).expect("a folder for the files");
    let (calls, answers) = (folder.join("stdin"), folder.join("stdout"));
    let status = Command::new(env!("CARGO_BIN_EXE_vectors"))
        .arg(&calls)
        .arg(&answers)
        .status()
        .expect("the writer runs");
    assert!(status.success());
    for (written, stored) in [(calls, "stdin"), (answers, "stdout")] {
        let stored = std::fs::read(top().join("crates/vectors").join(stored)).expect("a stored file");
        assert!(
            std::fs::read(written).expect("a written file") == stored,
            "the stored vectors differ from the reference's"
        );
    }
    std::fs::remove_dir_all(folder).expect("the folder goes");
}
