//! Measures the proved code and the plain one side by side. It is a
//! measurement and never a test.
//!
//! `bench [--times N]` runs the two in turn N times and shows the best time of
//! each: first the functions of the library from memory, on inputs of three
//! sizes, and then the whole programs from a file. It is run from the
//! repository's root. The proved programs are those that rt built,
//! `crates/NAME/out/NAME`, or those of the folder that BRAVOLITH_BIN_DIR names;
//! the plain ones are beside `bench`.

use held::hold::{Function, LIST, RUN, SIGNALS};
use held::measured::Measured;
use held::whole::{self, Folders, Program, LIST_CONDITIONS, READ_SIGNALS, RUN_DESK};
use held::{from_memory, inputs};
use plain::telegram::PACKETS;
use std::env;
use std::path::PathBuf;
use std::process::ExitCode;
use std::time::Duration;

/// So many tables, lists, and thousands of calls by fives.
const SIZES: [usize; 3] = [1_000, 10_000, 100_000];
const CALLS_OF_A_SIZE: usize = 5;

/// One thing that is measured in both ways.
struct Subject {
    function: Function,
    program: Program,
    input: fn(usize) -> Vec<u8>,
    /// What is counted, and how many of them an input of size 1 has.
    unit: &'static str,
    units: usize,
}

const SUBJECTS: [Subject; 3] = [
    Subject {
        function: LIST,
        program: LIST_CONDITIONS,
        input: inputs::recording,
        unit: "telegram",
        units: PACKETS,
    },
    Subject {
        function: RUN,
        program: RUN_DESK,
        input: inputs::lists,
        unit: "list",
        units: 1,
    },
    Subject {
        function: SIGNALS,
        program: READ_SIGNALS,
        input: |size| inputs::calls(size * CALLS_OF_A_SIZE),
        unit: "call",
        units: CALLS_OF_A_SIZE,
    },
];

fn show_head(name: &str, unit: &str) {
    let units = format!("{unit}s");
    let each = format!("ns a {unit}");
    println!("{name}");
    println!(
        "  {units:>9} {:>10} {:>10}  {:>10} {each:>14}  {:>10} {each:>14}  proved/plain",
        "bytes in", "bytes out", "proved ms", "plain ms"
    );
}

/// One line of a table; the answer is whether the outputs were the same.
fn show(measured: &Measured, units: usize) -> bool {
    let milliseconds = |time: Duration| time.as_secs_f64() * 1e3;
    let each = |time: Duration| time.as_secs_f64() * 1e9 / units as f64;
    println!(
        "  {units:>9} {:>10} {:>10}  {:>10.2} {:>14.1}  {:>10.2} {:>14.1}  {:>12.2}",
        measured.bytes_in,
        measured.bytes_out,
        milliseconds(measured.proved),
        each(measured.proved),
        milliseconds(measured.plain),
        each(measured.plain),
        measured.ratio()
    );
    if !measured.same {
        println!("  THE OUTPUTS DIFFER");
    }
    measured.same
}

/// The functions of the library, on each size, to see how the cost grows.
fn from_memory(times: u32) -> bool {
    println!("from memory, into buffers made and touched once before");
    let mut same = true;
    for subject in &SUBJECTS {
        show_head(subject.function.name, subject.unit);
        for size in SIZES {
            let input = (subject.input)(size);
            let measured = from_memory::measure(&subject.function, &input, times);
            same &= show(&measured, size * subject.units);
        }
    }
    same
}

/// The programs, on the largest size.
fn whole_programs(folders: &Folders, times: u32) -> bool {
    println!("whole programs, as processes, from a file that was just written, to /dev/null");
    let mut same = true;
    for subject in &SUBJECTS {
        show_head(subject.program.name, subject.unit);
        let size = SIZES[SIZES.len() - 1];
        let input = (subject.input)(size);
        match whole::measure(&subject.program, folders, &input, times) {
            Ok(measured) => same &= show(&measured, size * subject.units),
            Err(words) => {
                println!("  NOT MEASURED: {words}");
                same = false;
            }
        }
    }
    same
}

fn folders() -> Option<Folders> {
    Some(Folders {
        proved: env::var_os("BRAVOLITH_BIN_DIR").map(PathBuf::from),
        plain: env::current_exe().ok()?.parent()?.into(),
        scratch: "target/bench".into(),
    })
}

fn times() -> Result<u32, String> {
    let arguments: Vec<String> = env::args().skip(1).collect();
    match &arguments[..] {
        [] => Ok(15),
        [name, value] if name == "--times" => match value.parse() {
            Ok(times) if times > 0 => Ok(times),
            _ => Err(format!("{value} is no number of times")),
        },
        _ => Err("bench [--times N]".into()),
    }
}

fn main() -> ExitCode {
    let (times, folders) = match (times(), folders()) {
        (Ok(times), Some(folders)) => (times, folders),
        (Err(words), _) => {
            eprintln!("{words}");
            return ExitCode::from(2);
        }
        (_, None) => {
            eprintln!("bench cannot tell where it is");
            return ExitCode::from(2);
        }
    };
    println!("best of {times}, proved and plain in turn");
    let same = from_memory(times) & whole_programs(&folders, times);
    if same {
        println!("outputs are the same");
        ExitCode::SUCCESS
    } else {
        ExitCode::FAILURE
    }
}
