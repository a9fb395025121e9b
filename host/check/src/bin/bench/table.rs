//! One measurement, and its line of the table.

use std::hint::black_box;
use std::io::{self, IsTerminal};
use std::iter::Sum;
use std::time::Instant;

/// Seconds.
#[derive(Clone, Copy, Default)]
pub struct Times {
    pub proved: f64,
    pub plain: f64,
}

impl Sum for Times {
    fn sum<I: Iterator<Item = Times>>(times: I) -> Times {
        times.fold(Times::default(), |sum, one| Times { proved: sum.proved + one.proved, plain: sum.plain + one.plain })
    }
}

/// The seconds that something takes.
pub fn timed<T>(what: impl FnOnce() -> T) -> f64 {
    let since = Instant::now();
    black_box(what());
    since.elapsed().as_secs_f64()
}

/// As many turns as there is time for, from `least` to `most`: the means of what each measures, and how many there were. What
/// is compared is measured in the same turns, so that both meet the same moments of the machine.
pub fn turns(what: &str, seconds: f64, least: usize, most: usize, turn: impl Fn(usize) -> Vec<Times>) -> (Vec<Times>, usize) {
    let mut progress = Progress::begin(what);
    let mut all = Vec::new();
    while all.len() < least || (all.len() < most && progress.seconds() < seconds) {
        all.push(turn(all.len()));
        progress.show(|| format!("{} calls", all.len()));
    }
    let count = all.len() as f64;
    let mean = |k: usize| {
        let sum: Times = all.iter().map(|turn| turn[k]).sum();
        Times { proved: sum.proved / count, plain: sum.plain / count }
    };
    ((0..all[0].len()).map(mean).collect(), all.len())
}

/// Says on standard error what is being measured, and every five seconds how far it is. A terminal keeps one line for it.
pub struct Progress {
    what: String,
    begin: Instant,
    shown: Instant,
}

impl Progress {
    pub fn begin(what: &str) -> Progress {
        say(what);
        let begin = Instant::now();
        Progress { what: what.to_string(), begin, shown: begin }
    }

    pub fn seconds(&self) -> f64 {
        self.begin.elapsed().as_secs_f64()
    }

    pub fn show(&mut self, how_far: impl Fn() -> String) {
        if self.shown.elapsed().as_secs() >= 5 {
            self.shown = Instant::now();
            say(&format!("{}: {} in {:.0} s", self.what, how_far(), self.seconds()));
        }
    }
}

fn say(what: &str) {
    if io::stderr().is_terminal() {
        eprint!("\r{what:<100}\r");
    } else {
        eprintln!("{what} ..");
    }
}

pub fn head() {
    println!("  {:<42} {:>10} {:>10} {:>8}", "", "proved", "plain", "ratio");
}

pub fn line(what: &str, times: &Times, note: &str) {
    if io::stderr().is_terminal() {
        say("");
    }
    let ratio = times.proved / times.plain;
    println!("  {what:<42} {:>10} {:>10} {ratio:>8.3}   {note}", shown(times.proved), shown(times.plain));
}

/// How much of the whole a part is: of the proved time / of the plain time.
pub fn shares(part: &Times, whole: &Times) -> String {
    let share = |part: f64, whole: f64| match 100.0 * part / whole {
        s if s < 0.1 => "under 0.1 %".to_string(),
        s if s < 2.0 => format!("{s:.1} %"),
        s => format!("{s:.0} %"),
    };
    format!("{} / {}", share(part.proved, whole.proved), share(part.plain, whole.plain))
}

pub fn shown(seconds: f64) -> String {
    match seconds {
        s if s < 1e-3 => format!("{:.1} us", s * 1e6),
        s if s < 1.0 => format!("{:.2} ms", s * 1e3),
        s if s < 600.0 => format!("{s:.2} s"),
        s => format!("{:.2} h", s / 3_600.0),
    }
}
