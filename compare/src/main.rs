//! Feeds the proved code and the Rust source it was ported from the same calls, and
//! compares every answer, every reader's value and the whole next state after each call.

mod after;
mod both;
mod calls;
mod divergence;
mod ending;
mod exhaustive;
mod failed;
#[rustfmt::skip]
mod ffi;
mod ids;
mod long_runs;
mod long_scripts;
mod machine_ending;
mod machine_vectors;
mod markers;
mod numbering;
mod numbering_lines;
mod proved_side;
mod random;
mod rearming;
mod records;
mod refused;
mod rust_machine;
mod rust_side;
mod rust_values;
mod scripts;
mod timers;
mod unread;
mod values;
mod vectors;
mod walk;
mod whole;

use std::process::ExitCode;
use std::time::Instant;

use both::Both;

const HELP: &str = "\
Compares the proved code with the Rust source it was ported from, call by call.
On the first difference: prints the calls and both answers, and exits with 1.

compare                   all parts but the ends of numbering, about half a minute
compare --deep            deeper and longer, and the ends of numbering; up to half an hour
compare --depth N         how long the sequences of the cursors' exhaustive part are
compare --script-depth N  how long the scripts of the machines' exhaustive part are
compare --seed N          the seed of the random parts
compare --vectors FOLDER  only writes FOLDER/stdin and FOLDER/stdout: a fixed sample of
                          calls, and the answers of the Rust source
compare --numbering       only prints what the Rust source says at the end of numbering, in the
                          lines of crates/test_numbering/stdout; about a minute
compare --help            this text

When it is built, HISKURDO_RUST names the folder with the Rust source and HISKURDO_LIB
the folder with libcore_exports.a; a relative one is taken from the root of the repository.";

/// How much is compared.
pub struct Settings {
    pub seed: u64,
    /// The longest sequences and scripts that are walked with nothing made twice from the same states.
    pub depth: u32,
    pub script_depth: u32,
    /// The longest that are walked with nothing left out.
    pub short: u32,
    pub script_short: u32,
    pub random_timers: u64,
    pub long_runs: u64,
    pub long_scripts: u64,
    pub mixed_numbers: u64,
    deep: bool,
}

impl Settings {
    fn usual() -> Settings {
        Settings {
            seed: 1,
            depth: 64,
            script_depth: 48,
            short: 4,
            script_short: 3,
            random_timers: 4_000_000,
            long_runs: 2_000,
            long_scripts: 1_000,
            mixed_numbers: 200_000,
            deep: false,
        }
    }

    fn deep() -> Settings {
        let usual = Settings::usual();
        Settings {
            depth: 2 * usual.depth,
            script_depth: 2 * usual.script_depth,
            short: usual.short + 1,
            script_short: usual.script_short + 1,
            random_timers: 20 * usual.random_timers,
            long_runs: 20 * usual.long_runs,
            long_scripts: 20 * usual.long_scripts,
            mixed_numbers: 20 * usual.mixed_numbers,
            deep: true,
            ..usual
        }
    }
}

/// One part of the comparison: what it compares, and how.
struct Part {
    what: &'static str,
    run: fn(&Settings, &mut Both),
    only_deep: bool,
}

const PARTS: [Part; 12] = [
    usual("ids and allocators", ids::run),
    usual("timers", timers::run),
    usual("divergence", divergence::run),
    usual("the calls of --vectors", vectors::run),
    usual("numbers that name nothing", refused::run),
    usual("failed outcomes counted, states made by hand", failed::run),
    usual("cursors, every sequence", exhaustive::run),
    usual("cursors, long sequences at random", long_runs::run),
    usual("machines, every script", scripts::run),
    usual("machines, long scripts at random", long_scripts::run),
    only_deep("cursors, the end of numbering", ending::run),
    only_deep("machines, the end of numbering", machine_ending::run),
];

const fn usual(what: &'static str, run: fn(&Settings, &mut Both)) -> Part {
    Part {
        what,
        run,
        only_deep: false,
    }
}

const fn only_deep(what: &'static str, run: fn(&Settings, &mut Both)) -> Part {
    Part {
        what,
        run,
        only_deep: true,
    }
}

/// What the program was asked for.
enum Task {
    Help,
    Vectors(String),
    Numbering,
    Compare(Settings),
}

fn main() -> ExitCode {
    match task(std::env::args().skip(1)) {
        Ok(Task::Help) => println!("{HELP}"),
        Ok(Task::Vectors(folder)) => return write_vectors(&folder),
        Ok(Task::Numbering) => numbering::say(),
        Ok(Task::Compare(settings)) => compare(&settings),
        Err(problem) => {
            eprintln!("{problem}\n\n{HELP}");
            return ExitCode::from(2);
        }
    }
    ExitCode::SUCCESS
}

fn task(mut args: impl Iterator<Item = String>) -> Result<Task, String> {
    let (mut deep, mut seed, mut depth, mut script_depth) = (false, None, None, None);
    while let Some(arg) = args.next() {
        match arg.as_str() {
            "--help" => return Ok(Task::Help),
            "--numbering" => return Ok(Task::Numbering),
            "--vectors" => {
                let folder = args.next().ok_or("--vectors needs a folder")?;
                return Ok(Task::Vectors(folder));
            }
            "--deep" => deep = true,
            "--seed" => seed = Some(number(args.next(), "--seed")?),
            "--depth" => depth = Some(number(args.next(), "--depth")?),
            "--script-depth" => script_depth = Some(number(args.next(), "--script-depth")?),
            _ => return Err(format!("there is no flag {arg}")),
        }
    }
    let mut settings = if deep {
        Settings::deep()
    } else {
        Settings::usual()
    };
    settings.seed = seed.unwrap_or(settings.seed);
    settings.depth = depth.unwrap_or(settings.depth);
    settings.script_depth = script_depth.unwrap_or(settings.script_depth);
    Ok(Task::Compare(settings))
}

fn number<N: std::str::FromStr>(arg: Option<String>, flag: &str) -> Result<N, String> {
    arg.and_then(|arg| arg.parse().ok())
        .ok_or_else(|| format!("{flag} needs a number"))
}

fn compare(settings: &Settings) {
    println!(
        "seed {}, depth {}, script depth {}",
        settings.seed, settings.depth, settings.script_depth
    );
    let start = Instant::now();
    let mut both = Both::new();
    for part in &PARTS {
        if settings.deep || !part.only_deep {
            run_part(part, settings, &mut both);
        }
    }
    let seconds = start.elapsed().as_secs_f64();
    println!("total: {} calls compared, {seconds:.1} s", both.compared);
}

fn run_part(part: &Part, settings: &Settings, both: &mut Both) {
    let start = Instant::now();
    let before = both.compared;
    (part.run)(settings, both);
    let calls = both.compared - before;
    let seconds = start.elapsed().as_secs_f64();
    println!("{}: {calls} calls compared, {seconds:.1} s", part.what);
}

fn write_vectors(folder: &str) -> ExitCode {
    match vectors::write(folder) {
        Ok(()) => ExitCode::SUCCESS,
        Err(error) => {
            eprintln!("{folder}: {error}");
            ExitCode::FAILURE
        }
    }
}
