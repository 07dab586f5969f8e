//! Runs the program under test: a script on its standard input, its standard
//! output taken, with a limit on its time.

use std::io::{self, Read, Write};
use std::process::{Child, Command, ExitStatus, Stdio};
use std::sync::mpsc;
use std::thread;
use std::time::{Duration, Instant};

/// What a run gave; no status means that the time was up.
pub struct Ran {
    pub output: Vec<u8>,
    pub status: Option<ExitStatus>,
}

/// Runs the program with the input. No more than `most` bytes of its output
/// are read, so that one that never stops writing does no harm.
pub fn run(program: &[String], input: &[u8], most: usize, limit: Duration) -> io::Result<Ran> {
    let mut child = Command::new(&program[0])
        .args(&program[1..])
        .stdin(Stdio::piped())
        .stdout(Stdio::piped())
        .spawn()?;
    let end = Instant::now() + limit;
    feed(&mut child, input.to_vec());
    let output = collect(&mut child, most).recv_timeout(limit);
    let status = wait_until(&mut child, end)?;
    Ok(Ran {
        output: output.unwrap_or_default(),
        status,
    })
}

/// A program may end before it has read everything, so a failing write is no
/// fault. The writer is a thread, since the program may write first.
fn feed(child: &mut Child, input: Vec<u8>) {
    let pipe = child.stdin.take();
    thread::spawn(move || pipe.map(|mut pipe| pipe.write_all(&input)));
}

fn collect(child: &mut Child, most: usize) -> mpsc::Receiver<Vec<u8>> {
    let (sender, receiver) = mpsc::channel();
    let pipe = child.stdout.take();
    thread::spawn(move || {
        let mut output = Vec::new();
        let read = pipe.map(|pipe| pipe.take(most as u64).read_to_end(&mut output));
        if let Some(Ok(_)) = read {
            // Nobody listens any more once the time is up.
            let _ = sender.send(output);
        }
    });
    receiver
}

/// The status, or nothing after ending a child that has not ended in time.
fn wait_until(child: &mut Child, end: Instant) -> io::Result<Option<ExitStatus>> {
    loop {
        if let Some(status) = child.try_wait()? {
            return Ok(Some(status));
        }
        if Instant::now() >= end {
            child.kill()?;
            child.wait()?;
            return Ok(None);
        }
        thread::sleep(Duration::from_micros(200));
    }
}
