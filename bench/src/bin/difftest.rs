//! Differential test: every implementation against the reference, on many cases.

use std::path::{Path, PathBuf};
use std::process::{Command, ExitCode};

use planner_bench::cases::{Case, Cases};
use planner_bench::compare::{run, Difference};
use planner_bench::crash;
use planner_bench::planner::{self, Planner};
use planner_bench::sabotage;
use planner_bench::saved;
use planner_bench::tally::Tally;

const HELP: &str = "\
difftest: runs every call of every implementation (sweep, guided search, both in one, a list of starts
and ends, the space needed, the refused field, the conjunction of two diagrams, the reduction of one) on
many chart and diagram files and holds each result against the reference. Files and slices are lent
beside pages that fault when touched.

usage: difftest [--cases N] [--seed N] [--first N] [--save DIR] [--save-each] [--sabotage NAME]
       difftest --replay DIR
       difftest --sabotage all

  --cases N     cases for each seed (default 200000)
  --seed N      a seed to run after the fixed one
  --first N     begin each seed at this case number (default 0)
  --save DIR    where a failing case is saved (default failing-case)
  --save-each   save every case before it is run, to find one that ends the program by force
  --replay DIR  run the one case saved in a folder
  --sabotage NAME
                run one implementation that is spoiled in this way, which must be found; `all` tries
                each way and tells the case that found it; an unknown NAME lists all
  --help        this text

The exit status is 0 if all cases agree (of `--sabotage all`: if each was found), 1 at the first
difference or crash, or where a run of the default length misses a corner, 2 for bad arguments.";

const FIXED_SEED: u64 = 20_170_204;
const CASES: usize = 200_000;
/// Seconds after which a case is taken not to end.
const PATIENCE: u32 = 60;
/// Characters of a difference that `--sabotage all` shows.
const SHOWN: usize = 200;

struct Options {
    cases: usize,
    first: usize,
    seed: Option<u64>,
    save: PathBuf,
    save_each: bool,
    replay: Option<PathBuf>,
    sabotage: Option<String>,
    help: bool,
}

fn main() -> ExitCode {
    let options = match parse(std::env::args().skip(1)) {
        Ok(options) => options,
        Err(text) => {
            eprintln!("difftest: {text}\n\n{HELP}");
            return ExitCode::from(2);
        }
    };
    if options.help {
        println!("{HELP}");
        return ExitCode::SUCCESS;
    }
    if options.sabotage.as_deref() == Some("all") {
        return sabotage_all();
    }
    let planners = match planners(&options) {
        Ok(planners) => planners,
        Err(text) => {
            eprintln!("difftest: {text}");
            return ExitCode::from(2);
        }
    };
    match &options.replay {
        Some(folder) => replay(folder, &planners),
        None => run_all(&options, &planners),
    }
}

/// Every implementation, or the first one spoiled.
fn planners(options: &Options) -> Result<Vec<Box<dyn Planner>>, String> {
    match &options.sabotage {
        None => Ok(planner::all()),
        name => Ok(vec![sabotage::first_planner(name.as_deref())?]),
    }
}

fn parse(mut args: impl Iterator<Item = String>) -> Result<Options, String> {
    let mut options = Options {
        cases: CASES,
        first: 0,
        seed: None,
        save: PathBuf::from("failing-case"),
        save_each: false,
        replay: None,
        sabotage: None,
        help: false,
    };
    while let Some(arg) = args.next() {
        let mut value = || args.next().ok_or(format!("{arg} needs a value"));
        match arg.as_str() {
            "--cases" => options.cases = number(&arg, &value()?)? as usize,
            "--first" => options.first = number(&arg, &value()?)? as usize,
            "--seed" => options.seed = Some(number(&arg, &value()?)?),
            "--save" => options.save = PathBuf::from(value()?),
            "--save-each" => options.save_each = true,
            "--replay" => options.replay = Some(PathBuf::from(value()?)),
            "--sabotage" => options.sabotage = Some(value()?),
            "--help" | "-h" => options.help = true,
            _ => return Err(format!("unknown argument {arg}")),
        }
    }
    Ok(options)
}

fn number(name: &str, text: &str) -> Result<u64, String> {
    text.parse().map_err(|_| format!("{name} needs a number, not {text}"))
}

fn run_all(options: &Options, planners: &[Box<dyn Planner>]) -> ExitCode {
    crash::install(&options.save);
    let names: Vec<&str> = planners.iter().map(|planner| planner.name()).collect();
    println!("implementations: {}", names.join(", "));
    let mut tally = Tally::new();
    for seed in std::iter::once(FIXED_SEED).chain(options.seed) {
        if let Err(code) = run_seed(seed, options, planners, &mut tally) {
            return code;
        }
    }
    crash::end_within(0);
    tally.print();
    let seconds = tally.begun.elapsed().as_secs_f64();
    println!("{} cases, no difference, {seconds:.1} s", tally.cases);
    let whole = options.first == 0 && options.cases >= CASES;
    if whole && !reached_corners(&tally) {
        return ExitCode::from(1);
    }
    ExitCode::SUCCESS
}

/// Whether the cases went as far as they should; tells where they did not.
fn reached_corners(tally: &Tally) -> bool {
    for (corner, reached) in tally.missed() {
        println!("the cases miss a corner: {} is {reached}, not {}", corner.name, corner.wanted);
    }
    tally.missed().is_empty()
}

fn run_seed(
    seed: u64,
    options: &Options,
    planners: &[Box<dyn Planner>],
    tally: &mut Tally,
) -> Result<(), ExitCode> {
    let cases = Cases::new(seed);
    println!(
        "seed {seed}: first {} cases in corners, then {} of systematic damage",
        cases.corners(),
        cases.systematic().len()
    );
    for number in options.first..options.first.saturating_add(options.cases) {
        let case = cases.case(number);
        if options.save_each {
            save(&options.save, &case, None);
        }
        crash::begin(&case, Some((seed, number as u64)));
        crash::end_within(PATIENCE);
        let outcome = run(&case, planners);
        crash::end();
        match outcome {
            Ok(outcome) => tally.add(&case, &outcome),
            Err(found) => {
                print!("seed {seed}, case {number}, ");
                report(&case, &found);
                save(&options.save, &case, Some(&found));
                println!("to run it again: --replay {}", options.save.display());
                println!("{} cases, then a difference", tally.cases);
                return Err(ExitCode::from(1));
            }
        }
    }
    Ok(())
}

fn replay(folder: &Path, planners: &[Box<dyn Planner>]) -> ExitCode {
    let case = match saved::load(folder) {
        Ok(case) => case,
        Err(error) => {
            eprintln!("difftest: cannot read the case in {}: {error}", folder.display());
            return ExitCode::from(2);
        }
    };
    crash::install(folder);
    crash::begin(&case, None);
    crash::end_within(PATIENCE);
    match run(&case, planners) {
        Ok(outcome) => {
            println!("number {}\n1 case, no difference", outcome.number);
            ExitCode::SUCCESS
        }
        Err(found) => {
            report(&case, &found);
            println!("1 case, a difference");
            ExitCode::from(1)
        }
    }
}

/// Runs this program with each sabotage, since some of them end it. Wrong costs show where rounding
/// decides, groups taken wrongly where these do, wrong readings in files that come behind the corners, wrong conjunctions, and what is wrong
/// about padding, in cases of their own, wrong lists in random ones.
fn sabotage_all() -> ExitCode {
    let cases = Cases::new(FIXED_SEED);
    let searches = sabotage::searches().map(|sabotage| (sabotage, 0));
    let ticks = sabotage::ticks().map(|sabotage| (sabotage, cases.first_of_ticks()));
    let groups = sabotage::groups().map(|sabotage| (sabotage, cases.first_of_groups()));
    let readings = sabotage::readings().map(|sabotage| (sabotage, cases.corners()));
    let conjunctions =
        sabotage::conjunctions().map(|sabotage| (sabotage, cases.conjunctions().start));
    let padding = sabotage::padding().map(|sabotage| (sabotage, cases.padding().start));
    let lists = sabotage::lists().map(|sabotage| (sabotage, cases.first_random()));
    let mut missed = 0;
    let of_files = searches.chain(ticks).chain(groups).chain(readings);
    let all = of_files.chain(conjunctions).chain(padding).chain(lists);
    for (sabotage, first) in all {
        match caught(sabotage.name, first) {
            Ok(line) => println!("{}: {line}", sabotage.name),
            Err(text) => {
                missed += 1;
                println!("{}: NOT FOUND: {text}", sabotage.name);
            }
        }
    }
    println!("{} sabotages, {missed} not found", sabotage::all().count());
    ExitCode::from(u8::from(missed > 0))
}

/// The line with which a run from a case on ended that was spoiled, or why it is none.
fn caught(name: &str, first: usize) -> Result<String, String> {
    let program = std::env::current_exe().map_err(|error| error.to_string())?;
    let folder = std::env::temp_dir().join(format!("difftest-{}-{name}", std::process::id()));
    let mut command = Command::new(program);
    command.args(["--sabotage", name, "--first", &first.to_string(), "--save"]).arg(&folder);
    let run = command.output().map_err(|error| error.to_string())?;
    let saved = saved::load(&folder).is_ok();
    let _ = std::fs::remove_dir_all(&folder);
    let shown = String::from_utf8_lossy(&run.stdout);
    let seed = format!("seed {FIXED_SEED}, case ");
    let line = shown.lines().find(|line| line.starts_with(&seed));
    match (run.status.code(), line) {
        (Some(1), Some(line)) if saved => Ok(line.chars().take(SHOWN).collect()),
        (code, line) => Err(format!("status {code:?}, case saved: {saved}, {line:?}")),
    }
}

fn report(case: &Case, found: &Difference) {
    println!("{}: {} {}: {}", case.kind, found.planner, found.call, found.text);
}

fn save(folder: &Path, case: &Case, found: Option<&Difference>) {
    if let Err(error) = saved::save(folder, case, found) {
        eprintln!("difftest: cannot save to {}: {error}", folder.display());
    }
}
