//! The text form of scripts once more: a script described, and a text assembled.

use crate::bench::{self, little_endian};
use std::collections::HashSet;
use std::fmt::Write;

/// The text of a script: the opening and an event a line, or each word as it is where no ring is opened.
pub fn describe(script: &[u8]) -> String {
    let mut text = String::new();
    let words = match bench::opening(script) {
        Ok(opening) if opening.keys.iter().collect::<HashSet<_>>().len() == opening.keys.len() => {
            write!(text, "sides {} {}", opening.sides.clockwise, opening.sides.counter_clockwise).unwrap();
            for line in opening.keys.chunks(8) {
                text.push_str("\nkeys");
                line.iter().for_each(|key| write!(text, " {key}").unwrap());
            }
            text.push('\n');
            for word in opening.events.chunks_exact(4).map(little_endian) {
                writeln!(text, "{}", self::word(word)).unwrap();
            }
            opening.events
        }
        _ => {
            for word in script.chunks_exact(4).map(little_endian) {
                writeln!(text, "{}", raw(word)).unwrap();
            }
            script
        }
    };
    let tail = words.chunks_exact(4).remainder();
    if !tail.is_empty() {
        writeln!(text, "{}", self::tail(tail)).unwrap();
    }
    text
}

/// The event of a word, or its digits.
pub fn word(word: u32) -> String {
    event(word).unwrap_or(raw(word))
}

/// The tail of a script, two digits a byte.
pub fn tail(bytes: &[u8]) -> String {
    let digits: String = bytes.iter().map(|byte| format!("{byte:02x}")).collect();
    format!("tail {digits}")
}

fn raw(word: u32) -> String {
    format!("word {word:08x}")
}

/// The event of a word, unless an unnamed bit is set or the timer is none.
fn event(word: u32) -> Option<String> {
    let (x, other, timer, position) = (word & 63, word >> 6 & 63, word >> 12 & 7, word & 1023);
    let (polite, echo) = (word & 4096 != 0, word & 1024 != 0);
    let (named, text) = match word >> 28 {
        9 => (63, format!("on {x}")),
        10 if polite => (4096 + 63, format!("leave {x}")),
        10 => (63, format!("off {x}")),
        11 => (4095, format!("notice {x} {other}")),
        12 => (4095, format!("contact {x} {other}")),
        13 if [0, 2, 3, 4].contains(&timer) => (7 * 4096 + 63, format!("timer {timer} at {x}")),
        14 if echo => (1024 + 1023, format!("echo {position}")),
        14 => (1023, format!("deliver {position}")),
        15 => (1023, format!("lose {position}")),
        _ => return None,
    };
    (word & 0x0FFF_FFFF & !named == 0).then_some(text)
}

/// What came before a line.
#[derive(Clone, Copy, PartialEq)]
enum Before {
    Nothing,
    Sides,
    Keys,
    Words,
    Tail,
}

struct Assembler {
    before: Before,
    sides: u32,
    keys: Vec<u32>,
    script: Vec<u8>,
}

/// The script of a text, or the number of the first line that is none; where the keys are missing, of the last line.
pub fn assemble(text: &[u8]) -> Result<Vec<u8>, usize> {
    let mut assembler = Assembler { before: Before::Nothing, sides: 0, keys: Vec::new(), script: Vec::new() };
    let lines: Vec<&[u8]> = text.split(|&byte| byte == b'\n').collect();
    for (number, line) in lines.iter().enumerate() {
        let code = line.split(|&byte| byte == b'#').next().unwrap_or(&[]);
        let parts: Vec<&[u8]> = code.split(|&byte| byte <= 32).filter(|part| !part.is_empty()).collect();
        if let Some((&name, parts)) = parts.split_first() {
            assembler.line(name, parts).ok_or(number + 1)?;
        }
    }
    match assembler.before {
        Before::Sides => Err(lines.len()),
        Before::Keys => {
            assembler.open();
            Ok(assembler.script)
        }
        _ => Ok(assembler.script),
    }
}

impl Assembler {
    fn line(&mut self, name: &[u8], parts: &[&[u8]]) -> Option<()> {
        match (self.before, name) {
            (Before::Nothing, b"sides") => {
                let [a, b] = parts else { return None };
                let (a, b) = (number(a, 9)?, number(b, 9)?);
                self.sides = (a > 0 && b > 0).then_some(b << 22 | a)?;
                self.before = Before::Sides;
            }
            (Before::Sides | Before::Keys, b"keys") => {
                for key in parts {
                    self.keys.push(number(key, 1 << 24)?);
                }
                (!parts.is_empty() && self.keys.len() <= 64).then_some(())?;
                self.before = Before::Keys;
            }
            (Before::Sides | Before::Tail, _) => return None,
            (Before::Nothing, name) if name != b"word" && name != b"tail" => return None,
            (before, name) => {
                let bytes = given(name, parts)?;
                if before == Before::Keys {
                    self.open();
                }
                self.script.extend(bytes);
                self.before = if name == b"tail" { Before::Tail } else { Before::Words };
            }
        }
        Some(())
    }

    fn open(&mut self) {
        let head = 1 << 28 | self.sides | (self.keys.len() as u32) << 4;
        self.script.extend(head.to_le_bytes());
        for key in &self.keys {
            self.script.extend((2 << 28 | key).to_le_bytes());
        }
    }
}

/// The bytes of a line after the opening.
fn given(name: &[u8], parts: &[&[u8]]) -> Option<Vec<u8>> {
    let node = |part: &[u8]| number(part, 64);
    let word = match (name, parts) {
        (b"on", [x]) => 9 << 28 | node(x)?,
        (b"off", [x]) => 10 << 28 | node(x)?,
        (b"leave", [x]) => 10 << 28 | 4096 | node(x)?,
        (b"notice", [x, z]) => 11 << 28 | node(z)? << 6 | node(x)?,
        (b"contact", [x, y]) => 12 << 28 | node(y)? << 6 | node(x)?,
        (b"timer", [k, b"at", x]) => 13 << 28 | number(k, 5).filter(|&k| k != 1)? << 12 | node(x)?,
        (b"deliver", [i]) => 14 << 28 | number(i, 1024)?,
        (b"echo", [i]) => 14 << 28 | 1024 | number(i, 1024)?,
        (b"lose", [i]) => 15 << 28 | number(i, 1024)?,
        (b"word", [digits]) if digits.len() == 8 => u32::from_be_bytes(hexadecimal(digits)?.try_into().ok()?),
        (b"tail", [digits]) if [2, 4, 6].contains(&digits.len()) => return hexadecimal(digits),
        _ => return None,
    };
    Some(word.to_le_bytes().to_vec())
}

/// A decimal number of at most eight digits, below the limit.
fn number(part: &[u8], limit: u32) -> Option<u32> {
    let is_number = part.len() <= 8 && part.iter().all(u8::is_ascii_digit);
    let value = is_number.then(|| part.iter().fold(0, |value, digit| value * 10 + u32::from(digit - b'0')))?;
    (value < limit).then_some(value)
}

/// A byte for each two digits.
fn hexadecimal(digits: &[u8]) -> Option<Vec<u8>> {
    let digit = |byte: u8| (byte as char).to_digit(16).map(|value| value as u8);
    digits.chunks_exact(2).map(|pair| Some(digit(pair[0])? << 4 | digit(pair[1])?)).collect()
}
