//! The door of a library in another program, reached through a relay, the program of relay.c: questions
//! go to its standard input and replies come from its standard output.
//!
//! A question is one frame, and its reply is the same frame, of the same size, as the call left
//! it. All numbers in it are little-endian:
//!
//! - the head: a mark and the result (any number in a question), unsigned 64-bit numbers; 1 to 9 for turn, side, flat,
//!   segment, pair, list, plate, sheet or pair_bytes, the length of a margin, and the lengths of the first list, the
//!   second list, the lent answer and the lent buffer, unsigned 32-bit numbers; and the start place of a listing, the
//!   length of a sheet in bytes or the margins of two slices, an unsigned 64-bit number;
//! - the lent answer between two margins, unsigned 64-bit numbers;
//! - the lent buffer between two margins, unsigned 32-bit numbers;
//! - the first list and then the second, signed 32-bit numbers;
//! - four bytes of 0 where the frame's size would not be a multiple of eight without them.

use super::{Function, Lent, PutStraight, Question, Reply, Room, MARGIN};
use std::io::{Read, Write};
use std::process::{Child, ChildStdin, ChildStdout, Command, Stdio};

const COMMAND_VARIABLE: &str = "ZG_RELAY";

const FRAME_MARK: u64 = 0x7a67_0005;
const HEAD_BYTES: usize = 2 * 8 + 6 * 4 + 8;
const RESULT_AT: usize = 8;
/// Stands where the result will be: the relay has to write over it.
const NO_RESULT: u64 = u64::MAX;

/// There is no straight way through a relay.
pub const STRAIGHT: Option<PutStraight> = None;

pub struct Door {
    relay: Child,
    questions: ChildStdin,
    replies: ChildStdout,
}

impl Door {
    /// Starts the relay by the command that the variable ZG_RELAY holds, one word to a line.
    pub fn open() -> Result<Door, String> {
        let command = std::env::var(COMMAND_VARIABLE).map_err(|_| {
            format!("the variable {COMMAND_VARIABLE} must hold the relay's command, one word to a line")
        })?;
        let mut words = command.lines();
        // The relay needs no variables, and some would change what an emulator does.
        let started = Command::new(words.next().unwrap_or_default())
            .args(words)
            .env_clear()
            .stdin(Stdio::piped())
            .stdout(Stdio::piped())
            .spawn();
        let mut relay = started.map_err(|error| format!("the relay {command:?} can't be started: {error}"))?;
        match (relay.stdin.take(), relay.stdout.take()) {
            (Some(questions), Some(replies)) => Ok(Door {
                relay,
                questions,
                replies,
            }),
            _ => Err("the relay has no pipes".to_string()),
        }
    }

    pub fn ask(&mut self, questions: &[Question]) -> Result<Vec<Reply>, String> {
        let mut sent = Vec::new();
        let ends: Vec<usize> = questions
            .iter()
            .map(|question| push_frame(&mut sent, question))
            .collect();
        let got = self.exchange(&sent)?;
        if got.len() < sent.len() {
            let answered = ends.iter().filter(|end| **end <= got.len()).count();
            let status = self.status_at_end();
            return Err(format!(
                "the relay ended ({status}) with {answered} of {} calls answered",
                ends.len()
            ));
        }
        let starts = std::iter::once(0).chain(ends.iter().copied());
        let frames = questions.iter().zip(starts.zip(&ends));
        frames
            .map(|(question, (start, &end))| read_frame(question, &sent[start..end], &got[start..end]))
            .collect()
    }

    /// Sends all bytes and gives as many back, or fewer if the relay ends before.
    fn exchange(&mut self, sent: &[u8]) -> Result<Vec<u8>, String> {
        let mut got = Vec::with_capacity(sent.len());
        let (questions, replies) = (&mut self.questions, &mut self.replies);
        let read = std::thread::scope(|scope| {
            // Sent from a thread of its own: the relay waits while nobody takes its replies.
            // A relay that stops reading has ended, which the missing replies show.
            scope.spawn(|| questions.write_all(sent));
            replies.take(sent.len() as u64).read_to_end(&mut got)
        });
        match read {
            Ok(_) => Ok(got),
            Err(error) => Err(format!("the relay's replies can't be read: {error}")),
        }
    }

    /// Lets the relay end, which it must do in good order and with nothing more to say.
    pub fn close(self) -> Result<(), String> {
        let (mut relay, mut replies, mut rest) = (self.relay, self.replies, Vec::new());
        drop(self.questions);
        let read = replies.read_to_end(&mut rest);
        match (read, relay.wait()) {
            (Ok(0), Ok(status)) if status.success() => Ok(()),
            (Ok(extra), Ok(status)) => Err(format!("the relay ended badly ({status}, {extra} bytes too many)")),
            (Err(error), _) | (_, Err(error)) => Err(format!("the relay's end can't be seen: {error}")),
        }
    }

    fn status_at_end(&mut self) -> String {
        match self.relay.wait() {
            Ok(status) => status.to_string(),
            Err(error) => error.to_string(),
        }
    }
}

/// Adds the question's frame to the bytes, and gives the place of its end.
fn push_frame(bytes: &mut Vec<u8>, question: &Question) -> usize {
    let (first, second, room) = (question.first, question.second, question.room);
    let function = match question.function {
        Function::Turn => 1,
        Function::Side => 2,
        Function::Flat => 3,
        Function::Segment => 4,
        Function::Pair => 5,
        Function::List => 6,
        Function::Plate => 7,
        Function::Sheet => 8,
        Function::PairBytes => 9,
    };
    let (answer_length, buffer_length) = (room.answer.length(), room.buffer.length());
    bytes.extend([FRAME_MARK, NO_RESULT].map(u64::to_le_bytes).concat());
    for number in [
        function,
        MARGIN,
        first.len(),
        second.len(),
        answer_length,
        buffer_length,
    ] {
        bytes.extend((number as u32).to_le_bytes());
    }
    bytes.extend(question.start.to_le_bytes());
    for number in &room.answer.numbers {
        bytes.extend(number.to_le_bytes());
    }
    for number in &room.buffer.numbers {
        bytes.extend(number.to_le_bytes());
    }
    for number in first.iter().chain(second) {
        bytes.extend(number.to_le_bytes());
    }
    // Each frame starts at a multiple of eight.
    bytes.resize(bytes.len().next_multiple_of(8), 0);
    bytes.len()
}

fn read_frame(question: &Question, sent: &[u8], got: &[u8]) -> Result<Reply, String> {
    let after_result = RESULT_AT + 8;
    if got[..RESULT_AT] != sent[..RESULT_AT] || got[after_result..HEAD_BYTES] != sent[after_result..HEAD_BYTES] {
        return Err("a call wrote far outside all that was lent, over the head of a frame".to_string());
    }
    let result = u64::from_le_bytes(bytes_at(got, RESULT_AT));
    let (answer_numbers, buffer_numbers) = (question.room.answer.numbers.len(), question.room.buffer.numbers.len());
    let buffer_at = HEAD_BYTES + 8 * answer_numbers;
    let lists_at = buffer_at + 4 * buffer_numbers;
    let answer = (0..answer_numbers).map(|k| u64::from_le_bytes(bytes_at(got, HEAD_BYTES + 8 * k)));
    let buffer = (0..buffer_numbers).map(|k| u32::from_le_bytes(bytes_at(got, buffer_at + 4 * k)));
    Ok(Reply {
        result,
        room: Room {
            answer: Lent {
                numbers: answer.collect(),
            },
            buffer: Lent {
                numbers: buffer.collect(),
            },
        },
        lists_stayed: got[lists_at..] == sent[lists_at..],
    })
}

fn bytes_at<const N: usize>(bytes: &[u8], place: usize) -> [u8; N] {
    std::array::from_fn(|i| bytes[place + i])
}
