//! The steps: a line of progress on a terminal, and the time and memory of each.

use crate::report::counted;
use std::io::{self, IsTerminal, Write};
use std::time::{Duration, Instant};

struct Step {
    name: &'static str,
    time: Duration,
    /// The bytes of what it made.
    holds: usize,
    /// The most memory of the process up to its end, in kilobytes.
    peak: Option<usize>,
}

pub struct Steps {
    done: Vec<Step>,
    all: usize,
    terminal: bool,
}

impl Steps {
    pub fn new(all: usize) -> Self {
        Steps { done: Vec::new(), all, terminal: io::stderr().is_terminal() }
    }

    pub fn run<T>(&mut self, name: &'static str, doing: &str, step: impl FnOnce() -> T) -> T {
        self.progress(&format!("{} of {}: {doing} ...", self.done.len() + 1, self.all));
        let start = Instant::now();
        let result = step();
        let time = start.elapsed();
        self.progress("");
        self.done.push(Step { name, time, holds: 0, peak: peak_memory() });
        result
    }

    /// What the last step made takes so many bytes.
    pub fn holds(&mut self, bytes: usize) {
        if let Some(step) = self.done.last_mut() {
            step.holds = bytes;
        }
    }

    /// Writes over the line of progress. One that cannot be written is no fault of the grid.
    fn progress(&self, text: &str) {
        if self.terminal {
            let mut err = io::stderr();
            let _ = write!(err, "\r\x1b[K{text}").and_then(|()| err.flush());
        }
    }

    pub fn table(&self) -> String {
        let mut text =
            format!("\n{:8} {:>12} {:>16} {:>16}\n", "step", "time", "it holds", "peak memory");
        for step in &self.done {
            let peak = step.peak.map_or("not known".to_string(), |k| format!("{} KB", counted(k)));
            let holds = format!("{} bytes", counted(step.holds));
            let time = milliseconds(step.time);
            text += &format!("{:8} {time:>12} {holds:>16} {peak:>16}\n", step.name);
        }
        text
    }
}

fn milliseconds(time: Duration) -> String {
    format!("{:.3} ms", time.as_secs_f64() * 1e3)
}

/// Linux says it; elsewhere it is not known.
fn peak_memory() -> Option<usize> {
    let status = std::fs::read_to_string("/proc/self/status").ok()?;
    let line = status.lines().find_map(|line| line.strip_prefix("VmHWM:"))?;
    line.trim().strip_suffix("kB")?.trim().parse().ok()
}

#[cfg(test)]
mod tests {
    use super::*;

    #[test]
    fn each_step_has_a_line_with_its_time_and_memory() {
        let mut steps = Steps::new(2);
        assert_eq!(steps.run("read", "reading", || 7), 7);
        steps.holds(1234);
        steps.run("decode", "decoding", || std::thread::sleep(Duration::from_millis(3)));
        let table = steps.table();
        let lines: Vec<&str> = table.lines().skip(2).collect();
        assert_eq!(lines.len(), 2);
        assert!(lines[0].starts_with("read ") && lines[0].contains(" 1,234 bytes "), "{table}");
        assert!(steps.done[1].time >= Duration::from_millis(3));
        assert!(!cfg!(target_os = "linux") || steps.done[1].peak.is_some_and(|peak| peak > 100));
    }
}
