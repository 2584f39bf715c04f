//! Interleaved rounds, medians, and instruction counts.
use std::fs;
use std::process::Command;
use std::time::Instant;

const ROUNDS: usize = 21;

/// A thing to measure: it makes so many calls.
pub type Subject<'a> = (&'static str, Box<dyn FnMut(usize) + 'a>);

/// The median nanoseconds of one call of each subject: in each round every subject takes its turn, for about a millisecond or one call.
pub fn medians(subjects: &mut [Subject]) -> Vec<f64> {
    let calls: Vec<usize> = subjects.iter_mut().map(|(_, run)| enough(run)).collect();
    let mut times = vec![Vec::new(); subjects.len()];
    for _ in 0..ROUNDS {
        for (i, (_, run)) in subjects.iter_mut().enumerate() {
            let start = Instant::now();
            run(calls[i]);
            times[i].push(start.elapsed().as_nanos() as f64 / calls[i] as f64);
        }
    }
    times.iter_mut().map(|times| median(times)).collect()
}

/// The nanoseconds of one call of a subject, which is made once.
pub fn once((_, run): &mut Subject) -> f64 {
    let start = Instant::now();
    run(1);
    start.elapsed().as_nanos() as f64
}

fn enough(run: &mut dyn FnMut(usize)) -> usize {
    run(1);
    let start = Instant::now();
    run(3);
    let once = start.elapsed().as_nanos() as usize / 3 + 1;
    (1_000_000 / once).max(1)
}

/// The one in the middle.
pub fn median(times: &mut [f64]) -> f64 {
    times.sort_by(f64::total_cmp);
    times[times.len() / 2]
}

/// Blanking by vector stores: callgrind would count the one instruction that the C library takes otherwise (`rep stosb`) once for each byte.
const BLANKING: &str = "glibc.cpu.x86_rep_stosb_threshold=1000000000";

/// The instructions of one call, by callgrind: this program under it with two counts of calls.
pub fn instructions(subject: &str) -> Option<f64> {
    let program = std::env::current_exe().ok()?;
    let count = |calls: usize| -> Option<f64> {
        let out = std::env::temp_dir().join(format!("callgrind.{}", std::process::id()));
        let ran = Command::new("valgrind")
            .arg("--tool=callgrind")
            .arg(format!("--callgrind-out-file={}", out.display()))
            .arg(&program)
            .args(["--calls", subject, &calls.to_string()])
            .env("GLIBC_TUNABLES", BLANKING)
            .output()
            .ok()?;
        fs::remove_file(out).ok();
        let said = String::from_utf8_lossy(&ran.stderr).into_owned();
        let line = said.lines().find(|line| line.contains("Collected"))?;
        line.rsplit(' ').next()?.parse().ok()
    };
    Some((count(6)? - count(2)?) / 4.0)
}
