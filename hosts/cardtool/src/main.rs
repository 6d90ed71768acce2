//! Records and images as text. `cardtool --help` lists the commands.

use cardtool::program::{run, write};
use cardtool::tool;
use std::process::ExitCode;

fn main() -> ExitCode {
    run(|arguments| tool::run(arguments, &mut std::io::stdin().lock()).map(|output| write(&output)))
}
