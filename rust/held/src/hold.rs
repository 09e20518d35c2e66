//! Holds one function of the proved library against the plain one, on one
//! input, byte for byte.

use crate::random::Random;
use plain::telegram::TELEGRAM_BYTES;

/// A function of the proved library with its plain counterpart.
#[derive(Clone, Copy)]
pub struct Function {
    pub name: &'static str,
    pub proved: fn(&[u8], &mut [u8]) -> usize,
    pub plain: fn(&[u8], &mut Vec<u8>),
    /// What the proved library says of the output's length before it is made:
    /// how long it is, and how long it is at most.
    pub length: Option<Length>,
    /// Whether the output is lines; otherwise it is telegrams.
    pub text: bool,
}

#[derive(Clone, Copy)]
pub struct Length {
    pub exact: fn(&[u8]) -> usize,
    pub most: fn(usize) -> usize,
}

pub const LIST: Function = Function {
    name: "bravolith_list",
    proved: bravolith::list,
    plain: plain::listing::list,
    length: Some(Length {
        exact: bravolith::list_length,
        most: bravolith::list_room,
    }),
    text: true,
};

pub const HEAR: Function = Function {
    name: "bravolith_hear",
    proved: bravolith::hear,
    plain: plain::hearing::hear,
    length: None,
    text: true,
};

pub const RUN: Function = Function {
    name: "bravolith_run",
    proved: bravolith::run,
    plain: plain::run::run,
    length: None,
    text: false,
};

pub const RUN_LINES: Function = Function {
    name: "bravolith_run_lines",
    proved: bravolith::run_lines,
    plain: plain::run::run_lines,
    length: None,
    text: true,
};

pub const SIGNALS: Function = Function {
    name: "bravolith_signals",
    proved: bravolith::signals,
    plain: plain::calls::signals,
    length: None,
    text: true,
};

/// Bytes past the lent ones, to see that none of them is touched.
const GUARD: usize = 64;

/// The output expected and the buffer lent, kept from case to case so that
/// they need not be made anew.
#[derive(Default)]
pub struct Holder {
    pub expected: Vec<u8>,
    buffer: Vec<u8>,
}

impl Holder {
    /// Compares both on this input. The plain output stays in `expected`.
    /// The answer is how many calls of the proved function agreed, or words
    /// on the first difference.
    pub fn hold(
        &mut self,
        function: &Function,
        input: &[u8],
        random: &mut Random,
    ) -> Result<u64, String> {
        self.expected.clear();
        (function.plain)(input, &mut self.expected);
        let whole = self.expected.len();
        let mut calls = 1;
        if let Some(length) = function.length {
            let (exact, most) = ((length.exact)(input), (length.most)(input.len()));
            if exact != whole || most < whole {
                return Err(format!(
                    "the output has {whole} bytes, the proved length is {exact}, the room {most}"
                ));
            }
            calls += 1;
        }
        // More room than the text needs: a longer text would show.
        self.call(function, input, whole + random.between(1, 300), random)?;
        if !random.once_in(4) {
            return Ok(calls);
        }
        let less = random.below(whole + 1);
        let near = whole.saturating_sub(random.between(1, 30));
        let lent = random.pick(&[0, 1.min(whole), less, less, near, whole]);
        self.call(function, input, lent, random)?;
        Ok(calls + 1)
    }

    fn call(
        &mut self,
        function: &Function,
        input: &[u8],
        lent: usize,
        random: &mut Random,
    ) -> Result<(), String> {
        let filler = random.byte();
        self.buffer.clear();
        self.buffer.resize(lent + GUARD, filler);
        let answer = (function.proved)(input, &mut self.buffer[..lent]);
        let put = self.expected.len().min(lent);
        let expected = &self.expected[..put];
        let got = &self.buffer[..answer.min(lent)];
        if answer != put || got != expected {
            let words = difference(function, expected, got);
            return Err(format!(
                "lent {lent} bytes, answer {answer}, expected {put}\n{words}"
            ));
        }
        let past = &self.buffer[put..];
        match past.iter().position(|&byte| byte != filler) {
            Some(place) => Err(format!(
                "lent {lent} bytes, answer {answer}: byte {} past the answer was {filler:02x} and is {:02x}",
                put + place,
                past[place]
            )),
            None => Ok(()),
        }
    }
}

fn difference(function: &Function, expected: &[u8], got: &[u8]) -> String {
    let same = expected.iter().zip(got).take_while(|(a, b)| a == b).count();
    let (what, plain, proved) = if function.text {
        let line = expected[..same]
            .iter()
            .filter(|&&byte| byte == b'\n')
            .count();
        let name = format!("line {}", line + 1);
        (name, line_at(expected, same), line_at(got, same))
    } else {
        let telegram = same / TELEGRAM_BYTES;
        let name = format!("telegram {telegram}, byte {}", same % TELEGRAM_BYTES);
        (name, telegram_at(expected, same), telegram_at(got, same))
    };
    format!("first differing byte {same}, {what}\n  plain:  {plain}\n  proved: {proved}")
}

/// The line of a text that has this place in it.
fn line_at(text: &[u8], place: usize) -> String {
    let (before, after) = text.split_at(place.min(text.len()));
    let from = before.iter().rposition(|&byte| byte == b'\n');
    let length = after.iter().position(|&byte| byte == b'\n');
    let from = from.map_or(0, |newline| newline + 1);
    let upto = length.map_or(text.len(), |length| before.len() + length);
    if from == text.len() {
        return "(nothing)".into();
    }
    String::from_utf8_lossy(&text[from..upto]).into_owned()
}

fn telegram_at(file: &[u8], place: usize) -> String {
    let from = place / TELEGRAM_BYTES * TELEGRAM_BYTES;
    let upto = (from + TELEGRAM_BYTES).min(file.len());
    if from >= upto {
        return "(nothing)".into();
    }
    hex(&file[from..upto])
}

pub fn hex(bytes: &[u8]) -> String {
    let digits: Vec<String> = bytes.iter().map(|byte| format!("{byte:02x}")).collect();
    digits.join(" ")
}
