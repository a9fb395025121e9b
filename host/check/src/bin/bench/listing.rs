//! The list of all pairs. The lister prints the lines from one station at a time, so the time of each station is seen.

use crate::asking::{linked, stations, Sort};
use crate::table::{line, shares, shown, Progress, Times};
use crate::Full;
use check::lister;
use std::io::Read;
use std::sync::mpsc::{channel, RecvTimeoutError, Sender};
use std::thread;
use std::time::{Duration, Instant};

/// The lister may run so many times as long as another measurement.
const LISTER: f64 = 30.0;

/// Stations from which the lines cost about the same.
struct Origins {
    name: &'static str,
    linked: bool,
    /// How many such stations the book has.
    all: usize,
    /// How many of them were listed, and in how many seconds.
    listed: usize,
    seconds: f64,
}

impl Origins {
    fn time_of_all(&self) -> f64 {
        self.seconds * self.all as f64 / self.listed as f64
    }

    fn note(&self) -> String {
        let Origins { all, listed, seconds, .. } = self;
        if listed == all {
            return format!("all {all} stations listed");
        }
        format!("reckoned for {all} stations from {listed} listed in {}", shown(*seconds))
    }
}

/// Sends the moments at which the lines from one more station have come.
fn watch(mut output: impl Read, lines_each: usize, came: Sender<Instant>) {
    let mut buffer = [0; 65_536];
    let mut lines = 0;
    while let Ok(n @ 1..) = output.read(&mut buffer) {
        let before = lines / lines_each;
        lines += buffer[..n].iter().filter(|&&byte| byte == b'\n').count();
        for _ in before..lines / lines_each {
            if came.send(Instant::now()).is_err() {
                return;
            }
        }
    }
}

/// The seconds of the lines from each station, until all were listed or `enough` says so of how many were, in how many seconds.
fn run(bytes: &[u8], stations: usize, enough: impl Fn(usize, f64) -> bool) -> Vec<f64> {
    let mut progress = Progress::begin("the lister");
    let mut last = Instant::now();
    let mut child = lister::start(bytes);
    let output = child.stdout.take().unwrap();
    let (send, came) = channel();
    thread::spawn(move || watch(output, stations - 1, send));
    let mut times = Vec::new();
    while times.len() < stations && !enough(times.len(), progress.seconds()) {
        match came.recv_timeout(Duration::from_secs(1)) {
            Ok(moment) => {
                times.push((moment - last).as_secs_f64());
                last = moment;
            }
            Err(RecvTimeoutError::Timeout) => {}
            Err(RecvTimeoutError::Disconnected) => panic!("the lister ended after {} stations", times.len()),
        }
        progress.show(|| format!("{} of {stations} stations", times.len()));
    }
    let _ = child.kill();
    let _ = child.wait();
    times
}

/// Runs the lister until the time is up and stations of each sort were listed.
fn list(longest: f64, full: &Full) -> Vec<Origins> {
    let from_linked: Vec<bool> = stations(&full.book).into_iter().map(|station| linked(&full.book, station)).collect();
    let enough = |listed: usize, seconds: f64| {
        seconds > longest && from_linked[listed..].iter().all(|sort| from_linked[..listed].contains(sort))
    };
    let times = run(&full.bytes, from_linked.len(), enough);
    let origins = |(name, linked): (&'static str, bool)| {
        let listed = || times.iter().zip(&from_linked).filter(move |(_, &sort)| sort == linked).map(|(seconds, _)| *seconds);
        let all = from_linked.iter().filter(|&&sort| sort == linked).count();
        Origins { name, linked, all, listed: listed().count(), seconds: listed().sum() }
    };
    let sorts = [("from linked companies", true), ("from unlinked companies", false)];
    sorts.into_iter().map(origins).filter(|origins| origins.all > 0).collect()
}

/// The lister beside the plain search of all pairs, and which stations and which pairs cost most.
pub fn all_pairs(seconds: f64, full: &Full, sorts: &[Sort]) {
    let origins = list(LISTER * seconds, full);
    let from = |linked: bool| sorts.iter().filter(move |sort| sort.from_linked == linked);
    let searched = |linked: bool| from(linked).map(Sort::all_searched).sum::<Times>();
    let times = |origins: &Origins| Times { proved: origins.time_of_all(), plain: searched(origins.linked).plain };
    let whole: Times = origins.iter().map(times).sum();
    line("list all pairs, by the lister", &whole, &format!("{} pairs", sorts.iter().map(|sort| sort.pairs).sum::<usize>()));
    for origins in &origins {
        let times = times(origins);
        line(&format!("  {}", origins.name), &times, &format!("{}; {} of it", origins.note(), shares(&times, &whole)));
    }
    println!(
        "  the plain times of the list are reckoned from the pairs asked; so are the shares of its lines from linked companies:"
    );
    for sort in from(true) {
        println!("    {:<28} {:>6} pairs: {}", sort.name, sort.pairs, shares(&sort.all_searched(), &searched(true)));
    }
}
