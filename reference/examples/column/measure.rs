//! What the calls of a load cost: instructions, and times of this run.

use crate::loads::{HitCall, Load, RayCall};
use reference::field::Ray;
use std::env;
use std::process::Command;
use std::time::Instant;

/// Runs of which the shortest counts.
const RUNS: usize = 50;
/// Has glibc's memset store vectors: callgrind counts a repeated string
/// instruction once for each byte.
const VECTOR_MEMSET: &str = "glibc.cpu.x86_rep_stosb_threshold=1000000000";

/// Whether valgrind runs.
pub fn counts() -> bool {
    Command::new("valgrind").arg("--version").output().is_ok()
}

/// The instructions in the call of this name for a ray of a load, by this
/// program run again under callgrind. `None` if valgrind does not run.
pub fn instructions(load: &Load, call: &str) -> Option<f64> {
    instructions_by(load, call, &[])
}

/// The same, with further arguments for the program.
pub fn instructions_by(load: &Load, call: &str, arguments: &[&str]) -> Option<f64> {
    let output = Command::new("valgrind")
        .env("GLIBC_TUNABLES", VECTOR_MEMSET)
        .args(["--tool=callgrind", "--callgrind-out-file=/dev/null"])
        .arg(format!("--toggle-collect={call}"))
        .arg(env::current_exe().ok()?)
        .args([&load.name, call])
        .args(arguments)
        .output()
        .ok()?;
    let text = String::from_utf8_lossy(&output.stderr);
    assert!(output.status.success(), "{text}");
    let line = text.lines().find(|line| line.contains("Collected"))?;
    let all: f64 = line.split_whitespace().last()?.parse().ok()?;
    Some(all / load.rays.len() as f64)
}

/// The time of each of `N` calls on all rays of a load: the shortest of each ray, added
/// up. The calls take turns.
fn shortest<C: Copy, const N: usize>(
    load: &Load,
    calls: [C; N],
    make: impl Fn(&Ray, C),
) -> [f64; N] {
    let mut shortest = calls.map(|_| vec![f64::INFINITY; load.rays.len()]);
    for turn in 0..RUNS * N {
        for (seconds, ray) in shortest[turn % N].iter_mut().zip(&load.rays) {
            let start = Instant::now();
            make(ray, calls[turn % N]);
            *seconds = seconds.min(start.elapsed().as_secs_f64());
        }
    }
    shortest.map(|seconds| seconds.iter().sum())
}

/// The time of each of `N` calls, which fill so many bytes, on all rays of a load.
pub fn times<const BYTES: usize, const N: usize>(load: &Load, calls: [RayCall; N]) -> [f64; N] {
    shortest(load, calls, |ray, call| {
        load.fill::<BYTES>(ray, call);
    })
}

/// The time of the first hits by each of `N` calls on all rays of a load.
pub fn hit_times<const N: usize>(load: &Load, calls: [HitCall; N]) -> [f64; N] {
    shortest(load, calls, |ray, call| {
        load.first_hit(ray, call);
    })
}
