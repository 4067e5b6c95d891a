//! README's first session, run as it stands there.

use crate::common::directory::Directory;
use crate::common::tool::RISER;
use std::fs;
use std::path::Path;
use std::process::Command;

/// A command of the session, and the lines that it is said to print; `..` stands for any number of lines.
struct Exchange {
    command: String,
    lines: Vec<String>,
}

/// The exchanges of README's section on a first session: indented lines, commands behind `$`.
fn session(readme: &str) -> Vec<Exchange> {
    let (_, section) = readme.split_once("\n## A first session\n").expect("the section");
    let (section, _) = section.split_once("\n## ").expect("its end");
    let mut exchanges: Vec<Exchange> = Vec::new();
    for line in section.lines().filter_map(|line| line.strip_prefix("    ")) {
        match (line.strip_prefix("$ "), exchanges.last_mut()) {
            (Some(command), _) => {
                exchanges.push(Exchange { command: command.to_string(), lines: Vec::new() })
            }
            (None, Some(exchange)) => exchange.lines.push(line.to_string()),
            (None, None) => {}
        }
    }
    exchanges
}

/// Whether lines are as they are said to be.
fn matches(lines: &[&str], said: &[String]) -> bool {
    match said {
        [] => lines.is_empty(),
        [any, rest @ ..] if any == ".." => (0..=lines.len()).any(|skipped| matches(&lines[skipped..], rest)),
        [first, rest @ ..] => lines.first() == Some(&first.as_str()) && matches(&lines[1..], rest),
    }
}

#[test]
fn the_first_session_prints_what_it_says() {
    let root = Path::new(env!("CARGO_MANIFEST_DIR")).join("..");
    let readme = fs::read_to_string(root.join("README.md")).expect("README");
    let directory = Directory::new("readme");
    let tools = Path::new(RISER).parent().expect("a folder").to_str().expect("text").to_string();
    let path = format!("{tools}:{}", std::env::var("PATH").unwrap_or_default());
    let exchanges = session(&readme);
    assert!(exchanges.len() >= 9, "{}", exchanges.len());
    for Exchange { command, lines } in exchanges {
        let command = command.replace("path/to/this/repository", root.to_str().expect("text"));
        let mut shell = Command::new("sh");
        shell.args(["-c", &command]).env("PATH", &path).current_dir(&directory.0);
        let output = shell.output().expect("a shell");
        let said = String::from_utf8(output.stdout).expect("text");
        assert_eq!(String::from_utf8_lossy(&output.stderr), "", "{command}");
        assert_eq!(output.status.code(), Some(0), "{command}");
        assert!(matches(&said.lines().collect::<Vec<_>>(), &lines), "{command}\n{said}");
    }
    assert_eq!(directory.names(), ["block.bin", "block.html", "pattern.bin", "tableau.bin"]);
}

#[test]
fn lines_match_as_said() {
    let said = |lines: &[&str]| lines.iter().map(|line| line.to_string()).collect::<Vec<_>>();
    assert!(matches(&["a", "b", "c"], &said(&["a", "..", "c"])));
    assert!(matches(&["a", "c"], &said(&["..", "c", ".."])));
    assert!(!matches(&["a", "c", "d"], &said(&["..", "c"])));
    assert!(!matches(&["a"], &said(&[])));
    assert!(!matches(&[], &said(&["a"])));
}
