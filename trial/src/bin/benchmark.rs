//! `benchmark [GROUP..]`: times the proved library against the other implementations, on all groups of inputs
//! or on those named.

use std::ffi::OsString;
use std::process::ExitCode;
use tools::output::print;
use trial::benchmark::GROUPS;
use trial::ending::status;

fn main() -> ExitCode {
    let named: Vec<OsString> = std::env::args_os().skip(1).collect();
    let known = |name: &OsString| GROUPS.iter().any(|(group, _)| name == group);
    if let Some(unknown) = named.iter().find(|name| !known(name)) {
        let groups = GROUPS.map(|(group, _)| group).join("|");
        eprintln!("benchmark: no group is called {unknown:?}\nusage: benchmark [{groups}]..");
        return ExitCode::from(2);
    }
    status("benchmark", run(&named))
}

/// Prints the tables, line by line as they are made, until nobody reads them any longer.
fn run(named: &[OsString]) -> Result<bool, String> {
    let wanted = |group: &str| named.is_empty() || named.iter().any(|name| name == group);
    for (_, lines) in GROUPS.iter().filter(|(group, _)| wanted(group)) {
        for line in lines() {
            if !print(line?)? {
                return Ok(true);
            }
        }
    }
    Ok(true)
}
