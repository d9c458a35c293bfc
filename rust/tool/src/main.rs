//! The tool for bench engineers. All of it stands in `bezowik_tool`.

use std::process::ExitCode;

/// The tool, with the arguments of this process.
fn main() -> ExitCode {
    bezowik_tool::main()
}
