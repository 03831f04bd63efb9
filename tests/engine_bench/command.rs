//! The command line of the program.
use crate::work::{Job, Work};
use clap::{Arg, ArgAction, Command, value_parser};
use ioc_command_line::{Program, Stop, UsageFault, parse};
use std::alloc::{AllocError, Global};

/// The program.
pub const PROGRAM: Program<'static> = Program {
    name: "engine-bench",
    version: "0.1.0",
    about: "Starts an engine for each work, and carries it out in as many threads.",
    notes: "",
};

// The names of the works.
static WORKS: [&str; 13] = [
    "lone", "chain", "marked", "watched", "put", "notify", "link", "cancel", "post", "serve",
    "spread", "narrow", "hold",
];

// Returns the argument of a number.
fn number<'a>(alloc: Global, name: &'a str, help: &'a str) -> Arg<'a> {
    Arg::new(alloc, name)
        .required(true)
        .value_parser(value_parser!(u64))
        .help(help)
}

// Returns the command of the program.
fn command<'a>(alloc: Global) -> Result<Command<'a>, AllocError> {
    let works = Arg::new(alloc, "WORK")
        .num_args(0..)
        .action(ArgAction::Append)
        .value_parser(WORKS.as_slice())
        .help("what the threads do");
    let history = Arg::new(alloc, "history")
        .long("history")
        .value_name("EVENTS")
        .value_parser(value_parser!(usize))
        .help("how many events a lock set keeps, 1 to 64; 64 if not given");
    let records = "the length of a chain, or the number of records beside those that are called";
    PROGRAM
        .command(alloc)
        .arg(number(alloc, "CALLS", "the number of rounds of each thread"))?
        .arg(number(alloc, "THREADS", "the number of threads"))?
        .arg(number(alloc, "RECORDS", records))?
        .arg(history)?
        .arg(works)
}

/// Returns the jobs that the words of the command line ask for.
///
/// # Errors
///
/// [`Stop::Shown`] if they ask for help or for the version. [`Stop::Refused`] and [`Stop::Usage`]
/// if they are wrong. [`Stop::Memory`] if allocation fails.
pub fn jobs(alloc: Global, words: &[String]) -> Result<Vec<Job>, Stop> {
    let matches = parse(alloc, command(alloc)?, words)?;
    let (Some(rounds), Some(threads), Some(size)) = (
        matches.get_one::<u64>("CALLS"),
        matches.get_one::<usize>("THREADS"),
        matches.get_one::<usize>("RECORDS"),
    ) else {
        return Err(Stop::Usage(UsageFault::NoArgument));
    };
    let history = matches.get_one::<usize>("history").unwrap_or(64);
    let mut jobs = Vec::new(alloc);
    for name in matches.get_strs("WORK").unwrap_or(&[]) {
        let Some(work) = Work::from_name(name) else {
            return Err(Stop::Usage(UsageFault::NoArgument));
        };
        let job = Job {
            work,
            rounds,
            threads,
            size,
            history,
        };
        jobs.push(job).map_err(AllocError::from)?;
    }
    Ok(jobs)
}
