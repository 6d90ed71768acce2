//! Runs every case of the table on the machine and every engine, and prints a line for each.
//! `cases --help` lists the options.

use comparison::card::{linked, names, Card};
use comparison::cases::{all, Case};
use comparison::faults;
use comparison::program::{self, Failure};
use comparison::say_line;
use std::process::ExitCode;

const HELP: &str = "\
cases               runs every case and prints its line
cases --records     the records too, in hexadecimal; a line 'change' stands where the rules change
cases --fault NAME  with an engine that is wrong on purpose; a wrong name lists them all

Exit code: 0; 1 when a case comes out otherwise, or an engine differs; 2 when the command line is bad.
";

const OPTIONS: [&str; 2] = ["--records", "--fault"];

fn main() -> ExitCode {
    program::run_or_help(HELP, |arguments| match arguments {
        [] => run(&linked(), false),
        [option] if option == "--records" => run(&linked(), true),
        [option, name] if option == "--fault" => run(&[linked(), vec![faults::named(name)?]].concat(), false),
        [option, ..] if OPTIONS.contains(&option.as_str()) => {
            Err(Failure::bad_use("either --records or --fault NAME can be given"))
        }
        [option, ..] => Err(program::not_known(option, &OPTIONS)),
    })
}

fn run(cards: &[&dyn Card], with_records: bool) -> Result<(), Failure> {
    say_line!("machine against {}", names(cards));
    // A panic is a difference, and is told as one.
    std::panic::set_hook(Box::new(|_| {}));
    let failed = all().iter().filter(|case| !holds(case, cards, with_records)).count();
    match failed {
        0 => Ok(()),
        _ => Err(Failure::failed(format!("{failed} cases failed"))),
    }
}

/// Prints the case's line, or what differs.
fn holds(case: &Case, cards: &[&dyn Card], with_records: bool) -> bool {
    let verdicts = case.run(cards);
    match &verdicts {
        Ok(verdicts) => say_line!("{}", case.line(verdicts)),
        Err(difference) => say_line!("{}: FAILED: {difference}", case.name),
    }
    if with_records {
        case.history().iter().for_each(|event| say_line!("    {}", event.to_text()));
    }
    verdicts.is_ok()
}
