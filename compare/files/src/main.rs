//! Gives the proved readers, verdict and handover the same files as plain Rust ones, and
//! compares every answer.

mod bench;
mod cases;
mod compared_files;
mod damaged_files;
mod damaged_list;
mod edges;
mod failures;
mod files;
mod gates;
mod histories;
mod judge;
mod made_files;
mod numbers;
mod pairs;
mod pairs_list;
mod proved;
#[path = "../../src/random.rs"]
mod random;
mod reader;
mod report;
mod resume;
mod samples;
mod small_scope;
mod store;
mod terminals;
mod text;
mod too_soon;
#[allow(dead_code)]
#[path = "../../src/values.rs"]
mod values;
mod verdicts;
mod words;
mod writing;

use std::process::ExitCode;
use std::time::Instant;

const HELP: &str = "\
Compares the proved readers, verdict and handover with plain Rust ones, file by file.
On the first difference: prints the files and both answers, and exits with 1.

compare-files              all parts
compare-files --part NAME  one of: files, verdicts, lists
compare-files --depth N    the part lists: every list of up to N records
compare-files --times N    N times as many files and pairs at random
compare-files --seed N     the seed of what is random
compare-files --store DIR  only writes DIR/test_files and DIR/test_pairs, stdin and stdout: fixed
                           lists of files and of pairs, and the answers of the plain Rust
compare-files --bench      only times both sides on full files, and their growth
compare-files --calls SIDE CASE N
                           only makes N calls of one side (rust, rattle) of the timed case
                           that begins so, for a counter of instructions
compare-files --help       this text

When it is built, HISKURDO_RUST names the folder with the Rust source and HISKURDO_LIB the
folder with libhiskurdo.a; a relative one is taken from the root of the repository.";

/// How much is compared.
pub struct Settings {
    pub seed: u64,
    /// Every list of up to so many records.
    pub list_depth: u32,
    /// How many good files are damaged.
    pub damaged_files: u64,
    pub random_files: u64,
    pub pairs: u64,
}

impl Settings {
    fn usual() -> Settings {
        Settings {
            seed: 1,
            list_depth: 3,
            damaged_files: 60,
            random_files: 100_000,
            pairs: 60_000,
        }
    }

    fn more(&mut self, times: u64) {
        self.damaged_files *= times;
        self.random_files *= times;
        self.pairs *= times;
    }
}

/// One part of the comparison: its name, what it compares, and how.
struct Part {
    name: &'static str,
    what: &'static str,
    run: fn(&Settings) -> String,
}

const PARTS: [Part; 3] = [
    Part {
        name: "files",
        what: "files, good, damaged and random",
        run: files::run,
    },
    Part {
        name: "verdicts",
        what: "verdicts and handovers, pairs generated and damaged",
        run: verdicts::run,
    },
    Part {
        name: "lists",
        what: "verdicts, every short list of records against the definition",
        run: small_scope::run,
    },
];

/// What the program was asked for.
enum Task {
    Help,
    Bench,
    Calls([String; 2], u64),
    Store(String),
    Compare(Settings, Option<String>),
}

fn main() -> ExitCode {
    match task(std::env::args().skip(1)) {
        Ok(Task::Help) => println!("{HELP}"),
        Ok(Task::Bench) => bench::run(),
        Ok(Task::Calls([side, case], calls)) => return made(bench::calls(&side, &case, calls)),
        Ok(Task::Store(folder)) => return write_lists(&folder),
        Ok(Task::Compare(settings, part)) => compare(&settings, part.as_deref()),
        Err(problem) => {
            eprintln!("{problem}\n\n{HELP}");
            return ExitCode::from(2);
        }
    }
    ExitCode::SUCCESS
}

fn task(mut args: impl Iterator<Item = String>) -> Result<Task, String> {
    let mut settings = Settings::usual();
    let mut part = None;
    while let Some(arg) = args.next() {
        match arg.as_str() {
            "--help" => return Ok(Task::Help),
            "--bench" => return Ok(Task::Bench),
            "--calls" => {
                let side = args.next().ok_or("--calls needs a side")?;
                let case = args.next().ok_or("--calls needs a case")?;
                return Ok(Task::Calls([side, case], number(args.next(), "--calls")?));
            }
            "--store" => {
                let folder = args.next().ok_or("--store needs a folder")?;
                return Ok(Task::Store(folder));
            }
            "--part" => part = Some(part_name(args.next())?),
            "--seed" => settings.seed = number(args.next(), "--seed")?,
            "--depth" => settings.list_depth = number(args.next(), "--depth")?,
            "--times" => settings.more(number(args.next(), "--times")?),
            _ => return Err(format!("there is no flag {arg}")),
        }
    }
    Ok(Task::Compare(settings, part))
}

fn part_name(arg: Option<String>) -> Result<String, String> {
    arg.filter(|name| PARTS.iter().any(|part| part.name == name))
        .ok_or_else(|| "--part needs the name of a part".to_string())
}

fn number<N: std::str::FromStr>(arg: Option<String>, flag: &str) -> Result<N, String> {
    arg.and_then(|arg| arg.parse().ok())
        .ok_or_else(|| format!("{flag} needs a number"))
}

fn compare(settings: &Settings, only: Option<&str>) {
    println!(
        "seed {}; the proved readers: {}; the proved verdict and handover: {}",
        settings.seed,
        there(proved::HAS_READERS),
        there(proved::HAS_VERDICT)
    );
    for part in &PARTS {
        if only.is_none_or(|only| only == part.name) {
            let start = Instant::now();
            let told = (part.run)(settings);
            let seconds = start.elapsed().as_secs_f64();
            println!("{}: {told}; {seconds:.1} s", part.what);
        }
    }
}

fn write_lists(folder: &str) -> ExitCode {
    made(store::write(folder).map_err(|error| format!("{folder}: {error}")))
}

fn made(done: Result<(), String>) -> ExitCode {
    match done {
        Ok(()) => ExitCode::SUCCESS,
        Err(problem) => {
            eprintln!("{problem}");
            ExitCode::FAILURE
        }
    }
}

fn there(there: bool) -> &'static str {
    if there {
        "compared"
    } else {
        "NOT THERE, only the Rust is run"
    }
}
