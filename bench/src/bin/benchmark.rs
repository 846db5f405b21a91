//! Times every implementation on every load, in several placements.

use std::env::current_exe;
use std::fs;
use std::hint::black_box;
use std::path::{Path, PathBuf};
use std::process::ExitCode;

use planner_bench::history;
use planner_bench::loads::{groups, growth, remarks, standard, Group, Load};
use planner_bench::measure::listing::{self, List};
use planner_bench::measure::making::{self, Job};
use planner_bench::page::{load_average, Run};
use planner_bench::placements::{serve, Placement, SERVE};
use planner_bench::planner::{self, Planner};
use planner_bench::plot::svg;
use planner_bench::ratios::Measured;
use planner_bench::report::{
    csv, csv_of_lists, csv_of_makings, left_out, lists, makings, summary, table_head, table_rows,
};
use planner_bench::stacks::{peaks, Peak};

const HELP: &str = "\
benchmark: times both searches, and reading alone, of every implementation on every load, after
their results have been checked. A time is the least processor time of a call over all runs, rounds
and placements; in a round all implementations run in turn, from slices that hold what the calls
before left in them. Reading both files is part of a search's time. Conjunctions of two diagrams,
reductions of one and lists of starts and ends, in one call and one by one, are timed after all
searches, in one placement.

usage: benchmark [OPTION...]

  --runs N              how often all loads are gone through (default 2)
  --rounds N            samples of each call in each run and placement (default 12)
  --elsewhere FILE      this program linked with other padding, one more placement; any number
  --only TEXT           only loads whose name has this text; \"conjoin\": conjunctions alone,
                        \"reduce:\": reductions alone, \"cycles\": lists alone
  --csv FILE            where the times are written (default benchmark.csv)
  --svg FILE            where the plot of time against pairs is written (default benchmark.svg)
  --docs DIR            write performance.csv, performance.svg and PERFORMANCE-TABLES.md there
                        instead; not with --only
  --landing NAME        with --docs: the library's line in the history of DIR/PERFORMANCE.md, which
                        must have a line of that name
  --before-landing NAME the same for the earlier library
  --help                this text

The count is that of the first implementation: reached pairs of a sweep, settled ones of a guided
search; among equal sums implementations may settle different numbers of pairs.";

/// Bytes in front of the program's other code, set while it is built.
const PADDING: usize = bytes(option_env!("PLANNER_PADDING"));

#[used]
#[link_section = ".text.unlikely.padding"]
static PAD: [u8; PADDING] = [0; PADDING];

const fn bytes(text: Option<&str>) -> usize {
    let Some(text) = text else { return 0 };
    let digits = text.as_bytes();
    let (mut at, mut value) = (0, 0);
    while at < digits.len() {
        assert!(digits[at].is_ascii_digit(), "PLANNER_PADDING is a number");
        value = 10 * value + (digits[at] - b'0') as usize;
        at += 1;
    }
    value
}

struct Options {
    runs: usize,
    rounds: usize,
    elsewhere: Vec<PathBuf>,
    only: String,
    csv: PathBuf,
    svg: PathBuf,
    docs: Option<PathBuf>,
    /// The landing of an implementation's line.
    landings: Vec<(&'static str, String)>,
    serve: bool,
    help: bool,
}

fn main() -> ExitCode {
    // So that the linker keeps it.
    black_box(&PAD);
    let options = match parse(std::env::args().skip(1)) {
        Ok(options) => options,
        Err(text) => {
            eprintln!("benchmark: {text}\n\n{HELP}");
            return ExitCode::from(2);
        }
    };
    if options.help {
        println!("{HELP}");
        return ExitCode::SUCCESS;
    }
    let loads = [standard(), growth(), remarks(), groups()].concat();
    let done = match options.serve {
        true => serve(&loads, &planner::timed()).map_err(|error| error.to_string()),
        false => run(&options, &loads),
    };
    match done {
        Ok(()) => ExitCode::SUCCESS,
        Err(text) => {
            eprintln!("benchmark: {text}");
            ExitCode::from(1)
        }
    }
}

fn parse(mut args: impl Iterator<Item = String>) -> Result<Options, String> {
    let mut options = Options {
        runs: 2,
        rounds: 12,
        elsewhere: Vec::new(),
        only: String::new(),
        csv: PathBuf::from("benchmark.csv"),
        svg: PathBuf::from("benchmark.svg"),
        docs: None,
        landings: Vec::new(),
        serve: false,
        help: false,
    };
    while let Some(arg) = args.next() {
        let mut value = || args.next().ok_or(format!("{arg} needs a value"));
        match arg.as_str() {
            "--runs" => options.runs = positive(&arg, &value()?)?,
            "--rounds" => options.rounds = positive(&arg, &value()?)?,
            "--elsewhere" => options.elsewhere.push(PathBuf::from(value()?)),
            "--only" => options.only = value()?,
            "--csv" => options.csv = PathBuf::from(value()?),
            "--svg" => options.svg = PathBuf::from(value()?),
            "--docs" => options.docs = Some(PathBuf::from(value()?)),
            "--landing" => options.landings.push(("library", value()?)),
            "--before-landing" => options.landings.push(("before", value()?)),
            SERVE => options.serve = true,
            "--help" | "-h" => options.help = true,
            _ => return Err(format!("unknown argument {arg}")),
        }
    }
    if options.docs.is_some() && !options.only.is_empty() {
        return Err("--docs writes the figures of all loads, so it does not go with --only".into());
    }
    if options.docs.is_none() && !options.landings.is_empty() {
        return Err("a landing's line is in the page, so it needs --docs".into());
    }
    Ok(options)
}

fn positive(option: &str, text: &str) -> Result<usize, String> {
    let number = text.parse().ok().filter(|number| *number > 0);
    number.ok_or(format!("{option} needs a number, not {text}"))
}

fn run(options: &Options, loads: &[Load]) -> Result<(), String> {
    let busy = load_average();
    let planners = planner::timed();
    let names: Vec<&str> = planners.iter().map(|planner| planner.name()).collect();
    let history = History::read(options, &names)?;
    let mut placements = start(options)?;
    let all = measure_all(loads, options, &mut placements, &planners)?;
    let codes: Vec<usize> = placements.iter().map(|placement| placement.code).collect();
    drop(placements);
    let is_of = |group: Group| move |measured: &Measured| measured.group == group;
    let (remarked, others): (Vec<_>, Vec<_>) = all.iter().cloned().partition(is_of(Group::Remarks));
    let (grouped, plain): (Vec<_>, Vec<_>) = others.into_iter().partition(is_of(Group::Groups));
    let main = plain.iter().take_while(|measured| !measured.name.starts_with("growth: ")).count();
    let (main, growing) = plain.split_at(main);
    println!("\n{}\n", summary(main, &plain));
    left_out(&all, &names).iter().for_each(|text| println!("{text}\n"));
    let made = making::measure(&planners, options.runs * options.rounds, &options.only)?;
    println!("{}\n", makings(&made, &names));
    let listed = listing::measure(&planners, options.runs * options.rounds, &options.only)?;
    println!("{}\n", lists(&listed, &names));
    let peaks = peaks(&planner::complete(), &[standard(), remarks(), groups()].concat());
    for Peak { planner, call, bytes } in &peaks {
        println!("peak stack of {planner}, {call}: {bytes} bytes");
    }
    let (table, plot) = match &options.docs {
        Some(docs) => (docs.join("performance.csv"), docs.join("performance.svg")),
        None => (options.csv.clone(), options.svg.clone()),
    };
    write(&table, csv(&all) + &csv_of_makings(&made) + &csv_of_lists(&listed))?;
    let drawn: Vec<&str> = names.iter().copied().filter(|name| *name != "control").collect();
    write(&plot, svg(&plain, &drawn))?;
    let Some(docs) = &options.docs else { return Ok(()) };
    let run = Run {
        planners: &names,
        runs: options.runs,
        rounds: options.rounds,
        codes: &codes,
        busy: &busy,
        standard: main,
        growth: growing,
        remarks: &remarked,
        groups: &grouped,
        makings: &made,
        lists: &listed,
        peaks: &peaks,
    };
    write(&docs.join("PERFORMANCE-TABLES.md"), run.page())?;
    history.map_or(Ok(()), |history| history.write(main))
}

/// The page with a line for each landing.
struct History<'a> {
    path: PathBuf,
    text: String,
    landings: &'a [(&'static str, String)],
}

impl History<'_> {
    /// None where no line is to be written. The page must have the lines.
    fn read<'a>(options: &'a Options, names: &[&str]) -> Result<Option<History<'a>>, String> {
        let (Some(docs), landings @ [_, ..]) = (&options.docs, &options.landings[..]) else {
            return Ok(None);
        };
        let path = docs.join("PERFORMANCE.md");
        let text = fs::read_to_string(&path)
            .map_err(|error| format!("cannot read {}: {error}", path.display()))?;
        for (subject, landing) in landings {
            if !names.contains(subject) {
                return Err(format!("no line for {landing}: {subject} is not timed"));
            }
            if history::with_line(&text, landing, "").is_none() {
                return Err(format!("{} has no line \"| {landing} |\"", path.display()));
            }
        }
        Ok(Some(History { path, text, landings }))
    }

    fn write(mut self, standard: &[Measured]) -> Result<(), String> {
        for (subject, landing) in self.landings {
            let line = history::line(landing, subject, standard);
            println!("{line}");
            if let Some(text) = history::with_line(&self.text, landing, &line) {
                self.text = text;
            }
        }
        write(&self.path, self.text)
    }
}

/// This program and its copies; no two may have their code at the same place.
fn start(options: &Options) -> Result<Vec<Placement>, String> {
    let own = current_exe().map_err(|error| format!("this program has no path: {error}"))?;
    let mut placements: Vec<Placement> = Vec::new();
    for program in [&own].into_iter().chain(&options.elsewhere) {
        let placement = Placement::start(program)?;
        if placements.iter().any(|other| other.code == placement.code) {
            return Err(format!("{}: no other placement", program.display()));
        }
        placements.push(placement);
    }
    Ok(placements)
}

/// Goes through the loads several times; in the last run each is printed as soon as it is done.
fn measure_all(
    loads: &[Load],
    options: &Options,
    placements: &mut [Placement],
    planners: &[Box<dyn Planner>],
) -> Result<Vec<Measured>, String> {
    let names: Vec<&str> = planners.iter().map(|planner| planner.name()).collect();
    let chosen = |load: &Load| load.name.contains(&options.only);
    let chosen: Vec<usize> = (0..loads.len()).filter(|at| chosen(&loads[*at])).collect();
    let is_making = |(name, job): &(&str, Job)| making::is_chosen(name, job, &options.only);
    let is_list = |list: &List| list.is_chosen(&options.only);
    let others = Job::all().iter().any(is_making) || List::all().iter().any(is_list);
    if chosen.is_empty() && !others {
        return Err(format!("no load has \"{}\" in its name", options.only));
    }
    let (loads_of, places) = (chosen.len(), placements.len());
    let all: Result<Vec<Measured>, String> =
        chosen.iter().map(|at| Measured::new(&loads[*at])).collect();
    let mut all = all?;
    for run in 1..=options.runs {
        println!("run {run} of {}: {loads_of} loads in {places} placements", options.runs);
        if run == options.runs {
            println!("{}", table_head(&names));
        }
        for (at, measured) in chosen.iter().zip(&mut all) {
            for (place, placement) in placements.iter_mut().enumerate() {
                let timings = placement.measure(*at, options.rounds, planners);
                let timings = timings.map_err(|text| format!("{}: {text}", loads[*at].name))?;
                measured.add(place, places, timings);
            }
            if run == options.runs {
                println!("{}", table_rows(measured, &names));
            }
        }
    }
    Ok(all)
}

fn write(path: &Path, text: String) -> Result<(), String> {
    fs::write(path, text).map_err(|error| format!("cannot write {}: {error}", path.display()))?;
    println!("written: {}", path.display());
    Ok(())
}
