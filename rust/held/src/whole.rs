//! Times a whole proved program and the plain program of the same name, from
//! a file and with all their reading and writing.

use crate::hold::{Function, LIST, RUN, RUN_LINES, SIGNALS};
use crate::measured::Measured;
use std::fs::{self, File};
use std::io;
use std::path::{Path, PathBuf};
use std::process::{Command, Stdio};
use std::time::{Duration, Instant};

/// A program with the functions whose outputs it writes.
pub struct Program {
    pub name: &'static str,
    /// To standard output.
    output: Function,
    /// To standard error; None where nothing goes there.
    errors: Option<Function>,
}

pub const LIST_CONDITIONS: Program = Program {
    name: "list_conditions",
    output: LIST,
    errors: None,
};

pub const RUN_DESK: Program = Program {
    name: "run_desk",
    output: RUN,
    errors: Some(RUN_LINES),
};

pub const READ_SIGNALS: Program = Program {
    name: "read_signals",
    output: SIGNALS,
    errors: None,
};

/// Where programs are, and where inputs and outputs are put.
pub struct Folders {
    /// The folder that has the proved programs, or None for where rt builds
    /// each, below crates/.
    pub proved: Option<PathBuf>,
    pub plain: PathBuf,
    pub scratch: PathBuf,
}

/// Both programs are run once to compare what they write with what the plain
/// library answers, and then in turn, with the output thrown away.
pub fn measure(
    program: &Program,
    folders: &Folders,
    input: &[u8],
    times: u32,
) -> Result<Measured, String> {
    let file = folders.scratch.join(program.name).with_extension("in");
    fs::create_dir_all(&folders.scratch).map_err(|error| format!("{error}"))?;
    fs::write(&file, input).map_err(|error| format!("{}: {error}", file.display()))?;
    let proved = match &folders.proved {
        Some(folder) => folder.join(program.name),
        None => ["crates", program.name, "out", program.name]
            .iter()
            .collect(),
    };
    let plain = folders.plain.join(program.name);
    let output = expected(Some(&program.output), input);
    let errors = expected(program.errors.as_ref(), input);
    let mut measured = Measured::new(input.len(), output.len());
    for path in [&proved, &plain] {
        let wrote = wrote(path, &file, &folders.scratch)?;
        measured.same &= wrote == [&output[..], &errors[..]];
    }
    for _ in 0..times {
        let proved_time = run(&proved, &file, Stdio::null(), Stdio::null())?;
        measured.turn(
            proved_time,
            run(&plain, &file, Stdio::null(), Stdio::null())?,
        );
    }
    Ok(measured)
}

/// What the plain library answers.
fn expected(function: Option<&Function>, input: &[u8]) -> Vec<u8> {
    let mut output = Vec::new();
    if let Some(function) = function {
        (function.plain)(input, &mut output);
    }
    output
}

/// What a program writes to standard output and to standard error.
fn wrote(program: &Path, input: &Path, scratch: &Path) -> Result<[Vec<u8>; 2], String> {
    let paths = [scratch.join("output"), scratch.join("errors")];
    let told = |error: io::Error| format!("{}: {error}", scratch.display());
    let [output, errors] = [File::create(&paths[0]), File::create(&paths[1])];
    run(
        program,
        input,
        output.map_err(told)?.into(),
        errors.map_err(told)?.into(),
    )?;
    let [output, errors] = paths.map(fs::read);
    Ok([output.map_err(told)?, errors.map_err(told)?])
}

/// The time from the start of a process to its end.
fn run(program: &Path, input: &Path, output: Stdio, errors: Stdio) -> Result<Duration, String> {
    let told = |error: io::Error| format!("{} cannot be run: {error}", program.display());
    let input = File::open(input).map_err(told)?;
    let mut command = Command::new(program);
    command.stdin(input).stdout(output).stderr(errors);
    let start = Instant::now();
    let status = command.status().map_err(told)?;
    let time = start.elapsed();
    if status.success() {
        Ok(time)
    } else {
        Err(format!("{} ended with {status}", program.display()))
    }
}
