//! Standard outputs that can't be written to.

use std::io::{self, Write};
use std::os::fd::OwnedFd;
use std::os::unix::net::UnixStream;
use std::process::{Command, Output};

/// Runs the tool with a pipe that nobody reads.
pub fn run_unread(tool: &str, arguments: &[&str]) -> Output {
    let (_, writer) = io::pipe().expect("a pipe");
    Command::new(tool).args(arguments).stdout(writer).output().expect("the tool can be started")
}

/// Runs the tool with a socket that takes no more bytes.
pub fn run_full(tool: &str, arguments: &[&str]) -> Output {
    let (mut writer, _reader) = UnixStream::pair().expect("two sockets");
    writer.set_nonblocking(true).expect("a socket that doesn't wait");
    while writer.write(&[0; 1024]).is_ok() {}
    let stdout = OwnedFd::from(writer);
    Command::new(tool).args(arguments).stdout(stdout).output().expect("the tool can be started")
}
