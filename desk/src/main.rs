//! The program `ups`.

use std::process::ExitCode;

fn main() -> ExitCode {
    desk::main()
}
