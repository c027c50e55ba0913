//! Calls of the four operations: what the reference expects of them, and their forms as text and as frames.

use crate::reference::{Choice, Refined, Tie, choose, chosen, measure, refine, size};
use crate::reference_bounds::way_for;

/// A call with all its arguments; `figures`, `ends` and `reply` hold what was there before the answer. The first ten bytes of
/// `ends` are the two ends of a tie and the eight bytes of the delay.
#[derive(Clone, PartialEq, Eq, Debug)]
pub enum Call {
    Measure {
        job: Vec<u8>,
        sizing: Vec<u8>,
        figures: Vec<u8>,
    },
    Refine {
        job: Vec<u8>,
        sizing: Vec<u8>,
        place: usize,
        ends: Vec<u8>,
    },
    Choose {
        job: Vec<u8>,
        x: Vec<u8>,
        y: Vec<u8>,
    },
    Size {
        job: Vec<u8>,
        reply: Vec<u8>,
    },
}

/// What a call gives through the C interface: the number returned, and the lent buffer after it (empty for choose).
#[derive(Clone, PartialEq, Eq, Debug)]
pub struct Outcome {
    pub number: u64,
    pub buffer: Vec<u8>,
}

/// The number that the interface returns for a choice.
pub fn number_of(choice: Choice) -> u64 {
    match choice {
        Choice::None => 0,
        Choice::First => 1,
        Choice::Second => 2,
    }
}

/// Overwrites the start of a buffer with an answer, if it is given.
fn overwritten(buffer: &[u8], number: u64, answer: &[u8]) -> Vec<u8> {
    let mut after = buffer.to_vec();
    if number == 0 {
        after[..answer.len()].copy_from_slice(answer);
    }
    after
}

/// The eight bytes of a figure, lowest first.
fn figure_bytes(figure: u128) -> [u8; 8] {
    u64::try_from(figure).expect("a figure below 2^64").to_le_bytes()
}

/// The ten bytes of a tie: its ends and its delay.
fn tie_bytes(tie: Tie) -> Vec<u8> {
    [&[tie.lowest, tie.highest][..], &figure_bytes(tie.delay)].concat()
}

/// What the reference expects of a call through the C interface.
pub fn expected(call: &Call) -> Outcome {
    match call {
        Call::Measure { job, sizing, figures } => {
            let answer = measure(job, sizing);
            let bytes = [figure_bytes(answer.delay), figure_bytes(answer.load)].concat();
            let buffer = overwritten(figures, answer.number, &bytes);
            Outcome {
                number: answer.number,
                buffer,
            }
        }
        Call::Refine {
            job,
            sizing,
            place,
            ends,
        } => {
            let answer = refine(job, sizing, *place);
            Outcome {
                number: answer.number,
                buffer: overwritten(ends, answer.number, &tie_bytes(answer.tie)),
            }
        }
        Call::Choose { job, x, y } => Outcome {
            number: number_of(choose(job, x, y)),
            buffer: Vec::new(),
        },
        Call::Size { job, reply } => {
            let mut buffer = reply.clone();
            let number = size(job, &mut buffer, way_for(job));
            Outcome { number, buffer }
        }
    }
}

/// Bytes as hexadecimal digits.
pub fn hex(bytes: &[u8]) -> String {
    bytes.iter().map(|byte| format!("{byte:02x}")).collect()
}

/// Bytes as one word of a call's text: hexadecimal digits, or `-` for none.
fn word(bytes: &[u8]) -> String {
    if bytes.is_empty() { "-".into() } else { hex(bytes) }
}

/// The bytes of one word of a call's text.
fn bytes_of(word: &str) -> Vec<u8> {
    if word == "-" {
        return Vec::new();
    }
    (0..word.len() / 2)
        .map(|i| u8::from_str_radix(&word[2 * i..2 * i + 2], 16).expect("hexadecimal digits"))
        .collect()
}

impl Call {
    /// The call as one line of words, from which `from_text` makes it again.
    pub fn text(&self) -> String {
        match self {
            Call::Measure { job, sizing, figures } => format!("measure {} {} {}", word(job), word(sizing), word(figures)),
            Call::Refine {
                job,
                sizing,
                place,
                ends,
            } => {
                format!("refine {} {} {place} {}", word(job), word(sizing), word(ends))
            }
            Call::Choose { job, x, y } => format!("choose {} {} {}", word(job), word(x), word(y)),
            Call::Size { job, reply } => format!("size {} {}", word(job), word(reply)),
        }
    }

    /// The call of a line that `text` made.
    pub fn from_text(text: &str) -> Call {
        let words: Vec<&str> = text.split_whitespace().collect();
        let bytes = |i: usize| bytes_of(words[i]);
        match words[0] {
            "measure" => Call::Measure {
                job: bytes(1),
                sizing: bytes(2),
                figures: bytes(3),
            },
            "refine" => Call::Refine {
                job: bytes(1),
                sizing: bytes(2),
                place: words[3].parse().expect("a place"),
                ends: bytes(4),
            },
            "choose" => Call::Choose {
                job: bytes(1),
                x: bytes(2),
                y: bytes(3),
            },
            "size" => Call::Size {
                job: bytes(1),
                reply: bytes(2),
            },
            other => panic!("no operation is called {other}"),
        }
    }

    /// The call as a frame: the operation's byte, each slice with its length in two bytes, a place in one.
    pub fn frame(&self) -> Vec<u8> {
        match self {
            Call::Measure { job, sizing, .. } => [&[1][..], &slice(job), &slice(sizing)].concat(),
            Call::Refine { job, sizing, place, .. } => {
                let place = u8::try_from(*place).expect("a place of one byte");
                [&[2][..], &slice(job), &slice(sizing), &[place]].concat()
            }
            Call::Choose { job, x, y } => [&[3][..], &slice(job), &slice(x), &slice(y)].concat(),
            Call::Size { job, reply } => [&[4][..], &slice(job), &slice(reply)].concat(),
        }
    }

    /// The line that a program which runs frames has to print for this call.
    pub fn printed(&self) -> String {
        match self {
            Call::Measure { job, sizing, .. } => {
                let answer = measure(job, sizing);
                format!("measure {} {} {}", answer.number, answer.delay, answer.load)
            }
            Call::Refine { job, sizing, place, .. } => {
                let Refined { number, tie } = refine(job, sizing, *place);
                format!("refine {number} {} {} {}", tie.lowest, tie.highest, tie.delay)
            }
            Call::Choose { job, x, y } => with_bytes(format!("choose {}", chosen(job, x, y).len()), chosen(job, x, y)),
            Call::Size { .. } => {
                let outcome = expected(self);
                with_bytes(format!("size {}", outcome.number), &outcome.buffer)
            }
        }
    }
}

/// A line with a blank and bytes behind it, or as it is where there are no bytes.
fn with_bytes(line: String, bytes: &[u8]) -> String {
    if bytes.is_empty() {
        line
    } else {
        format!("{line} {}", hex(bytes))
    }
}

/// A slice in a frame: its length in two bytes, lowest first, and its bytes.
fn slice(bytes: &[u8]) -> Vec<u8> {
    let length = u16::try_from(bytes.len()).expect("a slice that fits a frame");
    [&length.to_le_bytes()[..], bytes].concat()
}
