//! The times of the cases. The hosts take turns in short rounds, all cases come in every pass, and the best round
//! counts, so that other work on the machine hurts least.

use crate::cases::{sixteen_sockets, Case};
use crate::hosts::{Plain, Player};
use crate::proved::Proved;
use crate::{cases, Outcome};
use std::time::Instant;

const PASSES: usize = 25;
const ROUNDS: usize = 20;
const TURNS: u32 = 200;
/// Few, as a counter of instructions is slow and exact.
const COUNTED_TURNS: u32 = 10;

/// Checked is the plain host with the same checks, unchecked the one without the record's check.
const HEADINGS: [&str; 6] = [
    "bytes",
    "proved",
    "checked",
    "unchecked",
    "/checked",
    "/unchecked",
];

struct Row {
    case: Case,
    best: Best,
}

/// The least nanoseconds of a turn.
struct Best {
    proved: f64,
    checked: f64,
    unchecked: f64,
}

pub fn print_table() -> Outcome {
    let mut rows: Vec<Row> = cases::all().into_iter().map(untimed).collect();
    for _ in 0..PASSES {
        rows.iter_mut().for_each(time);
    }
    println!("nanoseconds of a turn, the best of {}", PASSES * ROUNDS);
    print_line("case", HEADINGS.map(String::from));
    rows.iter().for_each(print_row);
    let greatest = rows
        .iter()
        .map(|row| row.best.proved / row.best.checked)
        .fold(0.0, f64::max);
    println!("The greatest ratio to the plain host with the same checks is {greatest:.2}.");
    Ok(())
}

fn untimed(case: Case) -> Row {
    let best = Best {
        proved: f64::INFINITY,
        checked: f64::INFINITY,
        unchecked: f64::INFINITY,
    };
    Row { case, best }
}

fn print_row(row: &Row) {
    let Best {
        proved,
        checked,
        unchecked,
    } = row.best;
    let times = [proved, checked, unchecked].map(|time| format!("{time:.0}"));
    let ratios = [proved / checked, proved / unchecked].map(|ratio| format!("{ratio:.2}"));
    let [proved, checked, unchecked] = times;
    let [to_checked, to_unchecked] = ratios;
    let bytes = row.case.bytes.to_string();
    print_line(
        row.case.title,
        [bytes, proved, checked, unchecked, to_checked, to_unchecked],
    );
}

fn print_line(title: &str, columns: [String; 6]) {
    let columns: Vec<String> = columns
        .iter()
        .map(|column| format!("{column:>10}"))
        .collect();
    println!("{title:<36} {}", columns.join(" "));
}

fn time(row: &mut Row) {
    let Row { case, best } = row;
    let mut proved = ready(Proved::open());
    let mut checked = ready(Plain::<true>::open());
    let mut unchecked = ready(Plain::<false>::open());
    for _ in 0..ROUNDS {
        best.proved = best.proved.min(turn_time(&mut proved, case));
        best.checked = best.checked.min(turn_time(&mut checked, case));
        best.unchecked = best.unchecked.min(turn_time(&mut unchecked, case));
    }
}

fn ready<P: Player>(mut player: P) -> P {
    for step in sixteen_sockets() {
        player.step(&step, &[], &mut []);
    }
    player
}

fn turn_time<P: Player>(player: &mut P, case: &Case) -> f64 {
    let start = Instant::now();
    turns(player, case, TURNS);
    start.elapsed().as_nanos() as f64 / f64::from(TURNS)
}

/// A function of its own in the program, as a counter of instructions is told to count within it.
#[inline(never)]
fn turns<P: Player>(player: &mut P, case: &Case, count: u32) -> u32 {
    let payload = [0x5a; 512];
    let mut buffer = [0; 512];
    let mut answers = 0;
    for _ in 0..count {
        for step in &case.steps {
            let answer = player.step(step, &payload[..usize::from(step.l)], &mut buffer);
            answers += u32::from(answer.number);
        }
    }
    answers
}

pub fn play(name: &str, bytes: u16, host: &str) -> Outcome {
    let case = cases::named(name, bytes).ok_or("no such case")?;
    let answers = match host {
        "proved" => turns(&mut ready(Proved::open()), &case, COUNTED_TURNS),
        "checked" => turns(&mut ready(Plain::<true>::open()), &case, COUNTED_TURNS),
        "unchecked" => turns(&mut ready(Plain::<false>::open()), &case, COUNTED_TURNS),
        _ => return Err("no such host".into()),
    };
    println!("{COUNTED_TURNS} turns, sum of answers {answers}");
    Ok(())
}
