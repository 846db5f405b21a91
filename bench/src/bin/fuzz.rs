//! Fuzzing of file bytes: the first implementation against the reference on spoiled sound files.

use std::path::PathBuf;
use std::process::ExitCode;
use std::time::Duration;

use planner_bench::cases::Case;
use planner_bench::compare::Difference;
use planner_bench::crash;
use planner_bench::fuzz::{Bounds, Corpus, Found, Fuzz};
use planner_bench::planner::Planner;
use planner_bench::sabotage;
use planner_bench::saved;

const HELP: &str = "\
fuzz: spoils sound chart and diagram files (bits, cuts, numbers, lengths, tags; fields doubled,
exchanged, left out, spliced; remarks; steps with several faults; padded nodes) and holds every call
of the library on them against the reference: number, file and place of a refusal, and all that a
call answers and writes.

usage: fuzz [--seconds N] [--cases N] [--seed N] [--first N] [--threads N] [--save DIR]
            [--sabotage NAME]

  --seconds N  how long (default 60)
  --cases N    end after so many pairs of files (default: only the time counts)
  --seed N     another seed than 1
  --first N    begin at this case number (default 0)
  --threads N  how many threads (default: one for each core)
  --save DIR   where a failing case is saved (default failing-case), for difftest --replay
  --sabotage NAME
               spoil the library's answers in this way, which must be found; an unknown NAME lists all
  --help       this text

The exit status is 0 if all answers agree, 1 at the first difference or crash, 2 for bad arguments.";

/// Seconds between two lines of progress.
const PROGRESS: f64 = 5.0;

struct Options {
    bounds: Bounds,
    seed: u64,
    save: PathBuf,
    sabotage: Option<String>,
    help: bool,
}

fn main() -> ExitCode {
    let options = match parse(std::env::args().skip(1)) {
        Ok(options) => options,
        Err(text) => {
            eprintln!("fuzz: {text}\n\n{HELP}");
            return ExitCode::from(2);
        }
    };
    if options.help {
        println!("{HELP}");
        return ExitCode::SUCCESS;
    }
    match sabotage::first_planner(options.sabotage.as_deref()) {
        Ok(planner) => run(&options, planner),
        Err(text) => {
            eprintln!("fuzz: {text}");
            ExitCode::from(2)
        }
    }
}

fn parse(mut args: impl Iterator<Item = String>) -> Result<Options, String> {
    let threads = std::thread::available_parallelism().map_or(1, |count| count.get());
    let mut options = Options {
        bounds: Bounds { first: 0, cases: u64::MAX, time: Duration::from_secs(60), threads },
        seed: 1,
        save: PathBuf::from("failing-case"),
        sabotage: None,
        help: false,
    };
    while let Some(arg) = args.next() {
        let mut value = || args.next().ok_or(format!("{arg} needs a value"));
        match arg.as_str() {
            "--seconds" => options.bounds.time = Duration::from_secs(number(&arg, &value()?)?),
            "--cases" => options.bounds.cases = number(&arg, &value()?)?,
            "--first" => options.bounds.first = number(&arg, &value()?)?,
            "--threads" => options.bounds.threads = number(&arg, &value()?)?.clamp(1, 256) as usize,
            "--seed" => options.seed = number(&arg, &value()?)?,
            "--save" => options.save = PathBuf::from(value()?),
            "--sabotage" => options.sabotage = Some(value()?),
            "--help" | "-h" => options.help = true,
            _ => return Err(format!("unknown argument {arg}")),
        }
    }
    Ok(options)
}

fn number(name: &str, text: &str) -> Result<u64, String> {
    text.parse().map_err(|_| format!("{name} needs a number, not {text}"))
}

fn run(options: &Options, planner: Box<dyn Planner>) -> ExitCode {
    let Bounds { time, threads, .. } = options.bounds;
    println!(
        "{} on {threads} threads, seed {}, at most {} s",
        planner.name(),
        options.seed,
        time.as_secs()
    );
    crash::install(&options.save);
    let corpus = Corpus::new(options.seed);
    let planners = [planner];
    let fuzz = Fuzz::new(&corpus, &planners, options.bounds);
    let mut next = PROGRESS;
    let progress = |fuzz: &Fuzz| {
        if fuzz.elapsed() >= next {
            next += PROGRESS;
            println!("{}", speed(fuzz));
        }
    };
    let agreed = fuzz.run(progress, |found| tell(options, &corpus.case(found.number), found));
    println!("by the sweep's number: {}", by_number(&fuzz));
    println!("with remarks: {}", fuzz.with_remarks());
    println!("{}, {}", speed(&fuzz), if agreed { "no difference" } else { "then a difference" });
    ExitCode::from(u8::from(!agreed))
}

fn speed(fuzz: &Fuzz) -> String {
    let (pairs, seconds) = (fuzz.done(), fuzz.elapsed());
    format!("{pairs} pairs of files, {seconds:.1} s, {:.0} each second", pairs as f64 / seconds)
}

fn by_number(fuzz: &Fuzz) -> String {
    let counts = fuzz.by_number();
    counts.iter().map(|(number, count)| format!("{number}: {count}")).collect::<Vec<_>>().join(", ")
}

/// Shows a difference and saves its case.
fn tell(options: &Options, case: &Case, Found { number, difference }: &Found) {
    let Difference { planner, call, text } = difference;
    println!("seed {}, case {number}, {}: {planner} {call}: {text}", options.seed, case.kind);
    match saved::save(&options.save, case, Some(difference)) {
        Ok(()) => println!("to run it again: difftest --replay {}", options.save.display()),
        Err(error) => eprintln!("fuzz: cannot save to {}: {error}", options.save.display()),
    }
}
