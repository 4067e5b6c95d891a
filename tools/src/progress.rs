//! How far long work is, on one line of standard error that is written over and in the end taken away. Only a
//! terminal is shown it: to anything else nothing is written.

use oracle::explain::wording::in_thousands;
use std::collections::VecDeque;
use std::fs::File;
use std::io::{self, IsTerminal, Stderr, Write};
use std::os::fd::AsFd;
use std::os::unix::fs::FileTypeExt;
use std::sync::Mutex;
use std::sync::atomic::{AtomicU64, Ordering::Relaxed};
use std::time::{Duration, Instant};

/// The most columns that the line takes.
const COLUMNS: usize = 79;
/// Erases from the cursor to the line's end.
const ERASE: &str = "\x1b[K";
/// Goes back to the line's beginning, and erases it.
const TAKE_AWAY: &str = "\r\x1b[K";
/// A line too long for a narrow terminal is cut there: one that went on below couldn't be written over.
const CUT: &str = "\x1b[?7l";
const WRAP: &str = "\x1b[?7h";

/// Work that is done sooner shows nothing.
const FIRST: Duration = Duration::from_millis(500);
/// The least time between two drawings.
const AGAIN: Duration = Duration::from_millis(250);
/// The time left is judged by so many drawings, since the speed of work may change.
const RECENT: usize = 20;

/// Work that counts what is done. Threads may share it; what they show is taken away when it is dropped.
pub struct Progress<W: Write = Stderr> {
    tool: &'static str,
    total: u64,
    what: &'static str,
    begun: Instant,
    due: Due,
    /// None if there is no terminal.
    drawing: Option<Mutex<Drawing<W>>>,
}

impl Progress {
    /// Begins work of the tool on so many of what is counted.
    pub fn new(tool: &'static str, total: u64, what: &'static str) -> Progress {
        Progress::on(Line::of_terminal(), tool, total, what)
    }
}

impl<W: Write> Progress<W> {
    fn on(line: Option<Line<W>>, tool: &'static str, total: u64, what: &'static str) -> Progress<W> {
        let drawing = line.map(|line| Mutex::new(Drawing { line, recent: VecDeque::new() }));
        Progress { tool, total, what, begun: Instant::now(), due: Due::new(), drawing }
    }

    /// Notes that so much is done, and shows it if that is due.
    pub fn reached(&self, done: u64) {
        if self.drawing.is_some() {
            self.reached_after(Reached { done, after: self.begun.elapsed() });
        }
    }

    fn reached_after(&self, now: Reached) {
        let Some(drawing) = self.drawing.as_ref().filter(|_| self.due.take(now.after)) else { return };
        // A thread that finds another one drawing goes on with its work.
        if let Ok(mut drawing) = drawing.try_lock() {
            let to_go = drawing.time_left(now, self.total);
            drawing.line.show(&self.text(now, to_go));
        }
    }

    /// `differential: 3,400,000 of 10,000,000 inputs, 34 %, 80 s, some 2 min to go`; without the time
    /// spent so far if that is too long.
    fn text(&self, now: Reached, to_go: Option<Duration>) -> String {
        let done = now.done.min(self.total);
        let of_hundred = (u128::from(done) * 100).checked_div(u128::from(self.total)).unwrap_or(100);
        let [done, total] = [done, self.total].map(in_thousands);
        let counts = format!("{}: {done} of {total} {}, {of_hundred} %", self.tool, self.what);
        let spent = format!(", {}", rounded(now.after));
        let to_go = to_go.map(|time| format!(", some {} to go", rounded(time))).unwrap_or_default();
        match counts.len() + spent.len() + to_go.len() {
            ..=COLUMNS => counts + &spent + &to_go,
            _ => counts + &to_go,
        }
    }
}

/// How much is done after how long.
#[derive(Clone, Copy)]
struct Reached {
    done: u64,
    after: Duration,
}

/// When the line is to be drawn next, in milliseconds since the work began.
struct Due(AtomicU64);

impl Due {
    fn new() -> Due {
        Due(AtomicU64::new(FIRST.as_millis() as u64))
    }

    /// Whether the line is to be drawn now: by the one thread that asks first.
    fn take(&self, now: Duration) -> bool {
        let due = self.0.load(Relaxed);
        let next = (now + AGAIN).as_millis() as u64;
        now.as_millis() >= u128::from(due) && self.0.compare_exchange(due, next, Relaxed, Relaxed).is_ok()
    }
}

struct Drawing<W: Write> {
    line: Line<W>,
    /// What was reached at the last drawings, the oldest first.
    recent: VecDeque<Reached>,
}

impl<W: Write> Drawing<W> {
    /// The time left at the speed since the oldest drawing that is kept. None at the first.
    fn time_left(&mut self, now: Reached, total: u64) -> Option<Duration> {
        self.recent.push_back(now);
        if self.recent.len() > RECENT {
            self.recent.pop_front();
        }
        let oldest = self.recent.front()?;
        let time = now.after.saturating_sub(oldest.after).as_millis();
        let left = u128::from(total.saturating_sub(now.done));
        let left = (left * time).checked_div(u128::from(now.done.saturating_sub(oldest.done)))?;
        Some(Duration::from_millis(u64::try_from(left).unwrap_or(u64::MAX)))
    }
}

/// A time in the unit that makes a number of two digits or so.
fn rounded(time: Duration) -> String {
    match time.as_secs() {
        seconds @ ..120 => format!("{seconds} s"),
        seconds @ ..7200 => format!("{} min", seconds / 60),
        seconds => format!("{} h", in_thousands(seconds / 3600)),
    }
}

/// A line of a terminal that is written over, and taken away when it is dropped.
pub struct Line<W: Write = Stderr> {
    terminal: W,
    shown: bool,
}

/// Shows a text on the terminal until what is given is dropped, for a tool that prints in between. Shows
/// nothing if the tool prints to a pipe, whose reader may write to the same terminal at any time.
pub fn show(text: &str) -> Option<Line> {
    let mut line = Line::of_terminal().filter(|_| !is_piped())?;
    line.show(text);
    Some(line)
}

/// What takes a line away that may be shown; nothing if standard error is no terminal.
pub fn erasure() -> &'static str {
    if is_terminal() { TAKE_AWAY } else { "" }
}

/// Whether standard error is a terminal that can erase.
fn is_terminal() -> bool {
    io::stderr().is_terminal() && std::env::var_os("TERM").is_none_or(|kind| kind != "dumb")
}

/// Whether standard output is a pipe.
fn is_piped() -> bool {
    let output = io::stdout().as_fd().try_clone_to_owned().map(File::from);
    output.and_then(|output| output.metadata()).is_ok_and(|output| output.file_type().is_fifo())
}

impl Line {
    fn of_terminal() -> Option<Line> {
        is_terminal().then(|| Line::on(io::stderr()))
    }
}

impl<W: Write> Line<W> {
    fn on(terminal: W) -> Line<W> {
        Line { terminal, shown: false }
    }

    fn show(&mut self, text: &str) {
        let text: String = text.chars().take(COLUMNS).collect();
        self.write(&format!("\r{CUT}{text}{ERASE}{WRAP}"));
        self.shown = true;
    }

    /// Writes at once. What can't be shown is no failure of the work.
    fn write(&mut self, bytes: &str) {
        let _ = self.terminal.write_all(bytes.as_bytes()).and_then(|()| self.terminal.flush());
    }
}

impl<W: Write> Drop for Line<W> {
    fn drop(&mut self) {
        if self.shown {
            self.write(TAKE_AWAY);
        }
    }
}

#[cfg(test)]
mod tests {
    use super::*;

    fn reached(done: u64, milliseconds: u64) -> Reached {
        Reached { done, after: Duration::from_millis(milliseconds) }
    }

    /// The text of a line.
    fn text(total: u64, now: Reached, seconds_to_go: Option<u64>) -> String {
        let progress = Progress::on(Some(Line::on(Vec::new())), "differential", total, "inputs");
        progress.text(now, seconds_to_go.map(Duration::from_secs))
    }

    /// What a terminal is sent for work that reaches this.
    fn sent(total: u64, reached: &[Reached]) -> String {
        let mut sent = Vec::new();
        let progress = Progress::on(Some(Line::on(&mut sent)), "tool", total, "things");
        reached.iter().for_each(|&now| progress.reached_after(now));
        drop(progress);
        String::from_utf8(sent).expect("a text")
    }

    /// The texts that a terminal is shown, one over the other.
    fn shown(total: u64, reached: &[Reached]) -> Vec<String> {
        let sent = sent(total, reached);
        let texts = sent.split("\r\x1b[?7l").skip(1).map(|text| text.split('\x1b').next());
        texts.map(|text| text.expect("a text").to_owned()).collect()
    }

    #[test]
    fn a_line_tells_what_is_done_and_how_long_it_takes() {
        let line = text(10_000_000, reached(3_400_000, 80_000), Some(150));
        assert_eq!(line, "differential: 3,400,000 of 10,000,000 inputs, 34 %, 80 s, some 2 min to go");
        let first = text(10_000_000, reached(49_999, 500), None);
        assert_eq!(first, "differential: 49,999 of 10,000,000 inputs, 0 %, 0 s");
    }

    #[test]
    fn a_full_line_leaves_out_the_time_that_was_spent() {
        let line = text(1_000_000_000, reached(999_999_999, 86_400_000), Some(7199));
        assert_eq!(line, "differential: 999,999,999 of 1,000,000,000 inputs, 99 %, some 119 min to go");
    }

    #[test]
    fn numbers_at_their_ends_are_told() {
        assert_eq!(
            text(0, reached(0, 1000), Some(0)),
            "differential: 0 of 0 inputs, 100 %, 1 s, some 0 s to go"
        );
        assert!(text(5, reached(6, 1000), None).starts_with("differential: 5 of 5 inputs, 100 %"));
        let most = u64::MAX;
        assert!(
            text(most, reached(most, most), Some(most)).contains("18,446,744,073,709,551,615 inputs, 100 %")
        );
        let slow = [reached(0, 0), reached(0, 500), reached(1, 3_600_500)];
        assert!(
            shown(most, &slow)[1].starts_with("tool: 1 of 18,446,744,073,709,551,615 things, 0 %, some ")
        );
    }

    #[test]
    fn times_are_rounded() {
        let times = [0, 119, 120, 7199, 7200, 36_000_000];
        let told = times.map(|seconds| rounded(Duration::from_secs(seconds)));
        assert_eq!(told, ["0 s", "119 s", "2 min", "119 min", "2 h", "10,000 h"]);
    }

    #[test]
    fn the_first_half_second_shows_nothing() {
        assert_eq!(sent(10, &[reached(1, 0), reached(5, 400), reached(9, 499)]), "");
    }

    #[test]
    fn a_drawing_follows_a_quarter_of_a_second_later() {
        let due = Due::new();
        let times = [499, 500, 501, 749, 750, 751, 5000, 5249, 5250];
        let drawn = times.into_iter().filter(|&time| due.take(Duration::from_millis(time)));
        assert_eq!(drawn.collect::<Vec<_>>(), [500, 750, 5000, 5250]);
    }

    #[test]
    fn one_of_the_threads_draws() {
        let due = Due::new();
        let drawn = std::thread::scope(|scope| {
            let threads = [(); 8].map(|()| scope.spawn(|| due.take(FIRST)));
            threads.map(|thread| thread.join().expect("an answer"))
        });
        assert_eq!(drawn.into_iter().filter(|&is_drawn| is_drawn).count(), 1);
    }

    #[test]
    fn the_line_is_written_over_and_taken_away() {
        let lines = sent(100, &[reached(10, 500), reached(20, 1500)]);
        let first = "\r\x1b[?7ltool: 10 of 100 things, 10 %, 0 s\x1b[K\x1b[?7h";
        let second = "\r\x1b[?7ltool: 20 of 100 things, 20 %, 1 s, some 8 s to go\x1b[K\x1b[?7h";
        assert_eq!(lines, format!("{first}{second}\r\x1b[K"));
    }

    /// As when a search ends early, and another way is tried that is slower.
    #[test]
    fn the_time_left_is_that_of_the_recent_speed() {
        let slower: Vec<Reached> = (0..100).map(|step| reached(500 + step, 1000 * (step + 1))).collect();
        let lines = shown(1000, &[&[reached(1, 500)], &slower[..]].concat());
        assert!(lines[1].ends_with("50 %, 1 s, some 0 s to go"), "{}", lines[1]);
        assert!(lines[30].ends_with("52 %, 30 s, some 7 min to go"), "{}", lines[30]);
    }

    #[test]
    fn a_line_keeps_to_its_columns() {
        let mut sent = Vec::new();
        Line::on(&mut sent).show(&"é".repeat(200));
        assert_eq!(String::from_utf8(sent).expect("a text").matches('é').count(), 79);
    }
}
