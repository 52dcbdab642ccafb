//! Job sheets with their whole answers as fixed text: the example of request Q-2 in document 02, and what follows from
//! its words at once.

use super::{A, END, LINE, THROUGH_A};
use crate::answers::plate::{Corners, Move, PARTS, SLOTS};
use crate::sheet::Sheet;

pub struct Stored {
    pub name: &'static str,
    pub sheet: Sheet,
    pub text: String,
}

/// A sheet as it is written, with the text that it must give.
#[derive(Default)]
struct Script {
    bytes: Vec<u8>,
    text: String,
}

impl Script {
    fn bytes(mut self, bytes: &[u8]) -> Script {
        self.bytes.extend(bytes);
        self
    }

    fn place(self, slot: u8, part: u8, corners: Corners) -> Script {
        let numbers = corners.map(i32::to_le_bytes).concat();
        self.bytes(&[1, 38, 0, slot, part]).bytes(&numbers)
    }

    fn lift(self, slot: u8) -> Script {
        self.bytes(&[2, 1, 0, slot])
    }

    fn shift(self, part: u8, by: Move) -> Script {
        let numbers = by.map(i32::to_le_bytes).concat();
        self.bytes(&[3, 13, 0, part]).bytes(&numbers)
    }

    fn undo(self) -> Script {
        self.bytes(&[4, 0, 0])
    }

    /// Adds a line to the text.
    fn line(mut self, line: &str) -> Script {
        self.text += line;
        self.text += "\n";
        self
    }

    /// The two places of the example.
    fn two_places() -> Script {
        let script = Script::default().place(0, 0, A).line("0 0");
        script.place(1, 1, THROUGH_A).line("0 1")
    }

    fn stored(self, name: &'static str) -> Stored {
        let sheet = Sheet { bytes: self.bytes };
        let text = self.text;
        Stored { name, sheet, text }
    }
}

pub fn stored() -> Vec<Stored> {
    let mut stored = vec![example(), Script::default().stored("an empty sheet"), all_refusals()];
    stored.push(from_end_to_end());
    stored.extend(unknown_fields());
    stored.extend(cut_fields());
    stored.extend(long_sheets());
    stored
}

/// "Whole output for place A in slot 0 as part 0, P1's second triangle in slot 1 as part 1, and three undos."
fn example() -> Stored {
    let script = Script::two_places().undo().line("0 0").undo().line("0 0");
    script.undo().line("12 0").stored("the example of Q-2")
}

/// Each refusal of a field, none of which stops the reading.
fn all_refusals() -> Stored {
    let mut script = Script::two_places();
    script = script.place(64, 16, A).line("6 1").place(255, 0, A).line("6 1");
    script = script.place(1, 16, LINE).line("7 1").place(1, 255, A).line("7 1");
    script = script.place(1, 1, [END + 1; 9]).line("1 1");
    script = script.place(1, 1, [0, 0, 0, 4, 0, 0, 0, i32::MIN, 0]).line("1 1");
    script = script.place(1, 1, LINE).line("2 1").place(1, 1, A).line("8 1");
    script = script.lift(64).line("6 1").lift(255).line("6 1").lift(2).line("9 1");
    script = script.shift(16, [0; 3]).line("7 1").shift(255, [0; 3]).line("7 1");
    script = script
        .shift(2, [0; 3])
        .line("10 1")
        .shift(1, [i32::MAX, 0, 0])
        .line("11 1");
    script = script.shift(1, [0, 0, i32::MIN]).line("11 1");
    script = script
        .shift(1, [0, 0, -3])
        .line("0 0")
        .undo()
        .line("0 1")
        .lift(0)
        .line("0 0");
    script = script.place(63, 15, A).line("0 1");
    script.stored("every refusal of a field")
}

/// A goes from the upper end of the grid to the lower one by the lowest 32-bit number, and back by the highest and a
/// step.
fn from_end_to_end() -> Stored {
    let high_a = |z: i32| [0, 0, z, 4, 0, z, 0, 4, z];
    let mut script = Script::default().place(0, 0, high_a(END)).line("0 0");
    script = script.place(1, 1, high_a(-END)).line("0 0");
    script = script.place(2, 2, high_a(END + 1)).line("1 0");
    script = script.shift(0, [0, 0, i32::MIN]).line("0 1");
    script = script.shift(0, [0, 0, i32::MIN]).line("11 1");
    script = script.shift(0, [0, 0, i32::MAX]).line("0 0");
    script = script.shift(0, [0, 0, i32::MAX]).line("11 0");
    script = script.shift(0, [0, 0, 1]).line("0 0");
    script = script.shift(0, [0, 0, 1]).line("11 0");
    script = script.undo().line("0 0").undo().line("0 1").undo().line("0 0");
    script.stored("from end to end of the grid")
}

/// What is no field, whole or with its body cut: a line with 13 and the count as it stands, and nothing after it.
fn unknown_fields() -> Vec<Stored> {
    let broken: [(&'static str, &[u8]); 12] = [
        ("tag 0", &[0, 0, 0]),
        ("tag 5", &[5, 0, 0]),
        ("tag 255 with a cut body", &[255, 38, 0]),
        ("a place of 37 bytes", &[1, 37, 0]),
        ("a place of 294 bytes", &[1, 38, 1]),
        ("a place with its length the wrong way round", &[1, 0, 38]),
        ("a lift of no byte", &[2, 0, 0]),
        ("a lift of 257 bytes", &[2, 1, 1]),
        ("a shift of 38 bytes", &[3, 38, 0]),
        ("a shift of 12 bytes", &[3, 12, 0]),
        ("an undo of a byte", &[4, 1, 0]),
        ("an undo of 256 bytes", &[4, 0, 1]),
    ];
    let mut stored = Vec::new();
    for (name, header) in broken {
        stored.push(Script::default().bytes(header).line("13 0").stored(name));
        let script = Script::two_places().bytes(header).line("13 1");
        stored.push(script.lift(0).undo().bytes(&[0; 300]).stored(name));
    }
    stored
}

/// The example cut at every place: what is whole is done, and a line with 14 follows where a field has begun.
fn cut_fields() -> Vec<Stored> {
    let whole = example().sheet.bytes;
    let lines: Vec<(usize, &str)> = vec![(0, ""), (41, "0 0\n"), (82, "0 1\n"), (85, "0 0\n"), (88, "0 0\n")];
    let cut = |bytes: usize| {
        let done: Vec<&(usize, &str)> = lines.iter().filter(|(end, _)| *end <= bytes).collect();
        let mut text: String = done.iter().map(|(_, line)| *line).collect();
        let (end, last) = done.last().map_or((0, ""), |last| **last);
        if end < bytes {
            text += if last == "0 1\n" { "14 1\n" } else { "14 0\n" };
        }
        let bytes = whole[..bytes].to_vec();
        let sheet = Sheet { bytes };
        let name = "the example of Q-2, cut";
        Stored { name, sheet, text }
    };
    let mut stored: Vec<Stored> = (0..whole.len()).map(cut).collect();
    // A header that is cut is that before its tag is unknown.
    stored.push(Script::default().bytes(&[9]).line("14 0").stored("tag 9 alone"));
    let script = Script::two_places().bytes(&[9, 0]).line("14 1");
    stored.push(script.stored("tag 9 with half a length"));
    stored
}

/// About 65,536 bytes: the most undos, the longest text, and what is too long, whatever it holds.
fn long_sheets() -> Vec<Stored> {
    let undos = |undos: usize| [4, 0, 0].repeat(undos);
    let refused = "12 0\n".repeat(21_845);
    let long = |name, bytes: Vec<u8>, text: &str| Stored {
        name,
        sheet: Sheet { bytes },
        text: text.to_string(),
    };
    let broken = [&[9][..], &[0; 65_536]].concat();
    let good = [&example().sheet.bytes[..], &undos(21_845)].concat();
    vec![
        long("65,535 bytes of undos", undos(21_845), &refused),
        long(
            "65,536 bytes of undos",
            [undos(21_845), vec![4]].concat(),
            &format!("{refused}14 0\n"),
        ),
        long("65,537 bytes of undos", [undos(21_845), vec![4, 0]].concat(), "15 0\n"),
        long("65,537 bytes with a broken field first", broken, "15 0\n"),
        long("the example of Q-2 and too much more", good, "15 0\n"),
        long("131,072 bytes of nothing", vec![0; 131_072], "15 0\n"),
        long("1,048,577 bytes of nothing", vec![0; 1_048_577], "15 0\n"),
        longest_text(),
    ]
}

/// A in all slots, four of each part: 1,920 clashes; 32 shifts by nothing, so that no undo reaches a place; and undos
/// as far as there is room.
fn longest_text() -> Stored {
    let (mut script, mut count) = (Script::default(), 0);
    for slot in 0..SLOTS {
        count += slot - slot / PARTS as usize;
        let part = (slot % PARTS as usize) as u8;
        script = script.place(slot as u8, part, A).line(&format!("0 {count}"));
    }
    for _ in 0..32 {
        script = script.shift(3, [0; 3]).line("0 1920");
    }
    for undo in 0..20_800 {
        script = script.undo().line(if undo < 32 { "0 1920" } else { "12 1920" });
    }
    script.stored("the longest text")
}
