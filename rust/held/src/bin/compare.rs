//! Runs the proved library and the plain one on the same seeded inputs and
//! compares every byte of every output.
//!
//! `compare [--seed N] [--lists N] [--writes N] [--telegrams N] [--heard N]
//! [--calls N] [--all]` runs every regime until there are so many lists, packets
//! asked for, condition telegrams in recordings, condition telegrams of any
//! length, and train calls. It stops at the first difference; with `--all` it
//! goes on, and shows the first difference of each regime. `compare --case
//! REGIME SEED` runs the one case that a difference has named, and shows its
//! input.

use held::hold::{hex, Function, Holder, HEAR, LIST, RUN, RUN_LINES, SIGNALS};
use held::random::Random;
use held::regime::{Regime, Times};
use held::tally::Tally;
use held::writing::{Writing, WRITINGS};
use held::{desk_regimes, hearing_regimes, recording_regimes, signal_regimes, words};
use std::process::ExitCode;
use std::time::Instant;

/// Inputs up to this length are shown whole.
const SHORT_INPUT: usize = 700;

struct Options {
    seed: u64,
    lists: u64,
    writes: u64,
    telegrams: u64,
    heard: u64,
    calls: u64,
    all: bool,
    case: Option<(String, u64)>,
}

fn options() -> Result<Options, String> {
    let mut options = Options {
        seed: 1435,
        lists: 780_000,
        writes: 60_000,
        telegrams: 3_000_000,
        heard: 1_700_000,
        calls: 600_000,
        all: false,
        case: None,
    };
    let mut arguments = std::env::args().skip(1);
    while let Some(name) = arguments.next() {
        let mut value = || arguments.next().ok_or(format!("{name} needs a value"));
        let number = |text: String| text.parse().map_err(|_| format!("{text} is no number"));
        match name.as_str() {
            "--seed" => options.seed = number(value()?)?,
            "--lists" => options.lists = number(value()?)?,
            "--writes" => options.writes = number(value()?)?,
            "--telegrams" => options.telegrams = number(value()?)?,
            "--heard" => options.heard = number(value()?)?,
            "--calls" => options.calls = number(value()?)?,
            "--all" => options.all = true,
            "--case" => options.case = Some((value()?, number(value()?)?)),
            _ => return Err(format!("{name} is no option")),
        }
    }
    Ok(options)
}

/// The regimes of one kind of input and the functions that take it.
struct Part {
    regimes: &'static [Regime],
    functions: &'static [Function],
}

const DESK: Part = Part {
    regimes: &desk_regimes::REGIMES,
    functions: &[RUN, RUN_LINES],
};
const RECORDINGS: Part = Part {
    regimes: &recording_regimes::REGIMES,
    functions: &[LIST],
};
const HEARING: Part = Part {
    regimes: &hearing_regimes::REGIMES,
    functions: &[HEAR],
};
const TRAIN: Part = Part {
    regimes: &signal_regimes::REGIMES,
    functions: &[SIGNALS],
};

struct Comparison {
    options: Options,
    holder: Holder,
    tally: Tally,
    passed: u64,
    failed: u64,
    /// The regimes that have shown a difference.
    found: Vec<&'static str>,
}

impl Comparison {
    /// One case: every function of the part on one input.
    fn case(&mut self, part: &Part, regime: &Regime, seed: u64, whole_input: bool) {
        let mut random = Random::new(seed);
        let input = (regime.make)(&mut random);
        let untouched = input.clone();
        if whole_input {
            println!("input: {}", hex(&input));
        }
        for function in part.functions {
            let held = self.holder.hold(function, &input, &mut random);
            let held = match held {
                Ok(_) if input != untouched => Err("the input was changed".into()),
                held => held,
            };
            let shown = !whole_input && input.len() <= SHORT_INPUT;
            self.tell(
                function.name,
                regime,
                seed,
                held,
                shown.then_some(&untouched[..]),
            );
            let expected = &self.holder.expected;
            match function.name {
                "bravolith_run" => {
                    self.tally.count_run(expected);
                    self.tally.unfitted.count_lists(&input);
                }
                "bravolith_run_lines" => self.tally.count_run_lines(expected),
                "bravolith_list" => {
                    self.tally.count_listing(&input, expected);
                    self.tally.unfitted.count_listing(&input, expected);
                }
                "bravolith_hear" => self.tally.heard.count(&input, expected),
                _ => self.tally.count_signals(expected),
            }
        }
    }

    /// One case of writing: every packet that is asked for after these lists.
    fn writing_case(&mut self, writing: &Writing, seed: u64, whole_input: bool) {
        let mut random = Random::new(seed);
        let lists = (writing.regime.make)(&mut random);
        let untouched = lists.clone();
        if whole_input {
            println!("input: {}", hex(&lists));
        }
        let held = self.tally.writes.hold(writing, &lists, &mut random);
        let held = match held {
            Ok(_) if lists != untouched => Err("the input was changed".into()),
            held => held,
        };
        let shown = !whole_input && lists.len() <= SHORT_INPUT;
        self.tell(
            "bravolith_write",
            &writing.regime,
            seed,
            held,
            shown.then_some(&untouched[..]),
        );
    }

    /// Counts the calls that agreed, or shows the first difference of a regime.
    fn tell(
        &mut self,
        function: &str,
        regime: &Regime,
        seed: u64,
        held: Result<u64, String>,
        input: Option<&[u8]>,
    ) {
        match held {
            Ok(calls) => self.passed += calls,
            Err(words) => {
                self.failed += 1;
                if !self.found.contains(&regime.name) {
                    self.found.push(regime.name);
                    println!("{function} differs in regime {}, case {seed}", regime.name);
                    println!("{words}");
                    if let Some(input) = input {
                        println!("input: {}", hex(input));
                    }
                }
            }
        }
    }

    fn stopped(&self) -> bool {
        self.failed > 0 && !self.options.all
    }

    /// The long regimes a few times each, the others in turn until enough.
    fn part(&mut self, part: &Part, enough: impl Fn(&Comparison) -> bool) {
        for round in 0.. {
            let mut cases = 0;
            for regime in part.regimes {
                let wanted = match regime.times {
                    Times::InTurn => round == 0 || !enough(self),
                    Times::Few(times) => round < times,
                };
                if wanted {
                    let seed = regime.seed(self.options.seed, round);
                    self.case(part, regime, seed, false);
                    cases += 1;
                }
                if self.stopped() {
                    return;
                }
            }
            if cases == 0 {
                return;
            }
        }
    }

    fn writings(&mut self) {
        for round in 0.. {
            let mut cases = 0;
            for writing in &WRITINGS {
                let wanted = match writing.regime.times {
                    Times::InTurn => round == 0 || self.tally.writes.calls < self.options.writes,
                    Times::Few(times) => round < times,
                };
                if wanted {
                    let seed = writing.regime.seed(self.options.seed, round);
                    self.writing_case(writing, seed, false);
                    cases += 1;
                }
                if self.stopped() {
                    return;
                }
            }
            if cases == 0 {
                return;
            }
        }
    }

    fn words(&mut self) {
        match words::hold() {
            Ok(told) => {
                println!("fixed words and texts near them {told}");
                self.passed += told;
            }
            Err(words) => {
                println!("{words}");
                self.failed += 1;
            }
        }
    }

    fn one_case(&mut self, name: &str, seed: u64) -> bool {
        for writing in &WRITINGS {
            if writing.regime.name == name {
                println!("{}: {}", writing.regime.name, writing.regime.sentence);
                self.writing_case(writing, seed, true);
                return true;
            }
        }
        for part in [&DESK, &RECORDINGS, &HEARING, &TRAIN] {
            let regime = part.regimes.iter().find(|regime| regime.name == name);
            if let Some(regime) = regime {
                println!("{}: {}", regime.name, regime.sentence);
                self.case(part, regime, seed, true);
                return true;
            }
        }
        false
    }
}

fn main() -> ExitCode {
    let options = match options() {
        Ok(options) => options,
        Err(words) => {
            eprintln!("{words}");
            return ExitCode::from(2);
        }
    };
    let start = Instant::now();
    let mut comparison = Comparison {
        options,
        holder: Holder::default(),
        tally: Tally::default(),
        passed: 0,
        failed: 0,
        found: Vec::new(),
    };
    if let Some((name, seed)) = comparison.options.case.take() {
        if !comparison.one_case(&name, seed) {
            eprintln!("{name} is no regime");
            return ExitCode::from(2);
        }
    } else {
        println!("seed {}", comparison.options.seed);
        comparison.part(&DESK, |c| c.tally.lists >= c.options.lists);
        if !comparison.stopped() {
            comparison.writings();
        }
        if !comparison.stopped() {
            comparison.part(&RECORDINGS, |c| c.tally.telegrams >= c.options.telegrams);
        }
        if !comparison.stopped() {
            comparison.part(&HEARING, |c| c.tally.heard.telegrams >= c.options.heard);
        }
        if !comparison.stopped() {
            comparison.part(&TRAIN, |c| c.tally.calls >= c.options.calls);
        }
        if !comparison.stopped() {
            comparison.words();
        }
        comparison.tally.print();
        if !comparison.stopped() {
            // A regime that provokes nothing is no test.
            for what in comparison.tally.missing() {
                println!("never occurred: {what}");
                comparison.failed += 1;
            }
        }
        if !comparison.found.is_empty() {
            println!("differences in: {}", comparison.found.join(", "));
        }
        println!("{:.1} seconds", start.elapsed().as_secs_f64());
    }
    println!("{} passed, {} failed", comparison.passed, comparison.failed);
    if comparison.failed == 0 {
        ExitCode::SUCCESS
    } else {
        ExitCode::FAILURE
    }
}
