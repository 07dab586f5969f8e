//! Before anything is timed: the cases and a whole script on every host, and all that can be seen compared.

use crate::cases::sixteen_sockets;
use crate::hosts::{Modelled, Plain, Player};
use crate::proved::Proved;
use crate::{cases, Outcome};
use model::script::{Step, HEADER, STEP};
use plain::record::Record;
use plain::Answer;

const SLOT: usize = 512;
const TURNS: usize = 3;

/// What a step shows: its answer, the buffer behind it and the record.
type Shown = (Answer, [u8; SLOT], Option<Record>);

struct Named {
    name: &'static str,
    player: Box<dyn Player>,
}

fn every_host() -> Vec<Named> {
    let named = |name, player| Named { name, player };
    vec![
        named(
            "the proved host",
            Box::new(Proved::open()) as Box<dyn Player>,
        ),
        named("the plain host", Box::new(Plain::<true>::open())),
        named(
            "the plain host without checks",
            Box::new(Plain::<false>::open()),
        ),
        named("the model", Box::new(Modelled::open())),
    ]
}

pub fn rehearse(script: &[u8]) -> Outcome {
    for case in cases::all() {
        let mut steps = sixteen_sockets();
        (0..TURNS).for_each(|_| steps.extend(&case.steps));
        play(&steps, case.title)?;
    }
    let steps: Vec<Step> = script[HEADER..].chunks(STEP).map(Step::decode).collect();
    play(&steps, "the script")
}

fn play(steps: &[Step], title: &str) -> Outcome {
    let mut hosts = every_host();
    for (index, step) in steps.iter().enumerate() {
        // Other bytes at every step, so that old ones are not taken for new.
        let payload: Vec<u8> = (0..step.l)
            .map(|i| (index + usize::from(i)) as u8)
            .collect();
        let shown: Vec<Shown> = hosts.iter_mut().map(|h| show(h, step, &payload)).collect();
        if let Some(other) = unlike_the_first(&hosts, &shown) {
            let (first, number) = (hosts[0].name, index + 1);
            let answers = (shown[0].0, shown[other].0);
            let other = hosts[other].name;
            return Err(
                format!("{title}, step {number}: {first} and {other} differ; {answers:?}").into(),
            );
        }
    }
    Ok(())
}

fn show(host: &mut Named, step: &Step, payload: &[u8]) -> Shown {
    let mut buffer = [0xee; SLOT];
    let answer = host.player.step(step, payload, &mut buffer);
    (answer, buffer, host.player.record())
}

/// The place of a host that shows something else than the first.
fn unlike_the_first(hosts: &[Named], shown: &[Shown]) -> Option<usize> {
    let (answer, buffer, record) = &shown[0];
    (1..hosts.len()).find(|&i| {
        shown[i].0 != *answer
            || shown[i].1 != *buffer
            || shown[i].2.is_some() && shown[i].2 != *record
            || hosts[i].player.store() != hosts[0].player.store()
    })
}
