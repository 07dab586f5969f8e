//! The two script programs on one script: their outputs compared, then their times, in turns.

use crate::Outcome;
use std::fs::File;
use std::io;
use std::process::{Command, Stdio};
use std::time::Instant;

const ROUNDS: usize = 40;

/// Seconds of a whole process.
#[derive(Clone, Copy)]
struct Time {
    wall: f64,
    user: f64,
}

const NEVER: Time = Time {
    wall: f64::INFINITY,
    user: f64::INFINITY,
};

pub fn race(script: &str, model: &str, uds: &[&str]) -> Outcome {
    let programs = [uds, &[model]];
    if output(programs[0], script)? != output(programs[1], script)? {
        return Err("the script programs write different lines".into());
    }
    let mut best = [NEVER; 2];
    for _ in 0..ROUNDS {
        for (best, program) in best.iter_mut().zip(programs) {
            let time = time(program, script)?;
            best.wall = best.wall.min(time.wall);
            best.user = best.user.min(time.user);
        }
    }
    print_times(best);
    Ok(())
}

fn print_times([proved, plain]: [Time; 2]) {
    println!("milliseconds of the script programs, the best of {ROUNDS}");
    println!(
        "{:<36} {:>10} {:>10} {:>10}",
        "60,000 steps", "proved", "plain", "ratio"
    );
    let times = [
        ("whole process", proved.wall, plain.wall),
        ("user time", proved.user, plain.user),
    ];
    for (title, proved, plain) in times {
        let ratio = proved / plain;
        println!(
            "{title:<36} {:>10.1} {:>10.1} {ratio:>10.2}",
            proved * 1e3,
            plain * 1e3
        );
    }
}

fn command(program: &[&str], script: &str) -> io::Result<Command> {
    let mut command = Command::new(program[0]);
    command.args(&program[1..]).stdin(File::open(script)?);
    Ok(command)
}

fn output(program: &[&str], script: &str) -> Result<Vec<u8>, Box<dyn std::error::Error>> {
    let output = command(program, script)?.output()?;
    if !output.status.success() {
        return Err(format!("{} ends with {}", program[0], output.status).into());
    }
    Ok(output.stdout)
}

fn time(program: &[&str], script: &str) -> io::Result<Time> {
    let mut command = command(program, script)?;
    command.stdout(Stdio::null());
    let before = children_user_time();
    let start = Instant::now();
    command.status()?;
    let wall = start.elapsed().as_secs_f64();
    let user = children_user_time() - before;
    Ok(Time { wall, user })
}

/// `struct rusage` of Linux on x86-64; only its first field is read.
#[repr(C)]
#[derive(Default)]
struct Usage {
    user_seconds: i64,
    user_microseconds: i64,
    others: [i64; 16],
}

extern "C" {
    fn getrusage(who: i32, usage: *mut Usage) -> i32;
}

const CHILDREN: i32 = -1;

fn children_user_time() -> f64 {
    let mut usage = Usage::default();
    // The call fills a struct of exactly this size.
    let failed = unsafe { getrusage(CHILDREN, &mut usage) } != 0;
    assert!(!failed, "getrusage fails");
    usage.user_seconds as f64 + usage.user_microseconds as f64 / 1e6
}
