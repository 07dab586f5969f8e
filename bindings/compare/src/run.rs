//! One run: openings, then steps, each compared.

use crate::convert;
use crate::damage;
use crate::differences::parts_that_differ;
use crate::lists;
use crate::maker::Maker;
use crate::step::Step;
use crate::tally::Tally;
use crate::typed::Methods;
use crate::world::{Compared, World};
use model::host::{Host, Thread, STORE};
use model::random::Random;
use std::collections::VecDeque;

/// Steps of a run, and those that are left to it once its thread has ended.
const STEPS: usize = 250;
const STEPS_ENDED: usize = 25;
/// Steps that are shown before a difference.
const SHOWN: usize = 12;

struct Run<'t> {
    world: World,
    maker: Maker,
    methods: Methods,
    tally: &'t mut Tally,
    /// The latest steps in words.
    past: VecDeque<String>,
}

/// The first difference, in words that begin with where it is.
pub fn run(seed: u64, number: u64, tally: &mut Tally) -> Result<(), String> {
    let mut random = Random::new(seed, number);
    for _ in 0..2 {
        refused_opening(&mut random, tally)?;
    }
    let list = lists::good_list(&mut random);
    let opened = World::open(&list, vec![0xa5; STORE]);
    let told = |what| format!("opening\n{}{what}", lists::in_words(&list));
    let (world, given) = opened.map_err(told)?;
    tally.add_opening(given);
    let mut run = Run {
        maker: Maker::new(random, &list),
        world,
        methods: Methods::new(),
        tally,
        past: VecDeque::new(),
    };
    run.steps()
}

/// A list or a store that opening may refuse.
fn refused_opening(random: &mut Random, tally: &mut Tally) -> Result<(), String> {
    let list = lists::any_list(random);
    let length = match random.below(4) {
        0 => lists::other_length(random),
        _ => STORE,
    };
    let opened = World::open(&list, vec![0xa5; length]);
    let words = lists::in_words(&list);
    let told = |what| format!("opening on {length} bytes\n{words}{what}");
    tally.add_opening(opened.map_err(told)?.1);
    Ok(())
}

impl Run<'_> {
    fn steps(&mut self) -> Result<(), String> {
        let mut left = STEPS;
        let mut number = 0;
        while left > 0 {
            number += 1;
            left -= 1;
            if self.world.model.thread == Thread::Ended {
                left = left.min(STEPS_ENDED);
            }
            let step = self.maker.step(&self.world.model);
            let compared = self.some_step(&step);
            compared.map_err(|difference| self.told(number, &step, &difference))?;
        }
        Ok(())
    }

    /// A step of the run or, beside it, a step on a damaged copy.
    fn some_step(&mut self, step: &Step) -> Result<(), String> {
        match self.maker.random.below(100) {
            0..=9 => self.on_damaged(step),
            10..=12 => self.on_other_store(step),
            13 => self.scribble(),
            _ => self.on_world(step),
        }
    }

    fn on_world(&mut self, step: &Step) -> Result<(), String> {
        let mut host = self.world.host();
        let made = self.world.make(step)?;
        if self.methods.make(&mut host, step, &made)? {
            self.world.same_as(&host)?;
            self.tally.typed += 1;
        }
        self.tally.add(step.request.kind, made.answer.number);
        self.remember(format!("{}: {}", step.in_words(), made.answer.number));
        Ok(())
    }

    /// The damage may leave a record that is well formed: then both have to
    /// answer it alike.
    fn on_damaged(&mut self, step: &Step) -> Result<(), String> {
        let mut copy = self.world.clone();
        let record = damage::damaged(&mut self.maker, copy.record);
        let compared = match convert::host(&record) {
            Some(host) => {
                let store = std::mem::take(&mut copy.model.store);
                copy.model = Host { store, ..host };
                copy.record = record;
                copy.make(step)
            }
            None => copy.make_on_no_record(record, step),
        };
        self.tally.damaged += 1;
        let shown = |difference| {
            let changes = parts_that_differ(&self.world.record, &record);
            format!("on a damaged record; before and after:\n{changes}{difference}")
        };
        let compared = compared.map_err(shown);
        self.count(step, compared)
    }

    fn on_other_store(&mut self, step: &Step) -> Result<(), String> {
        let mut copy = self.world.clone();
        let length = lists::other_length(&mut self.maker.random);
        copy.store.resize(length, 7);
        copy.model.store.resize(length, 7);
        self.tally.other_stores += 1;
        let shown = |difference| format!("on a store of {length} bytes\n{difference}");
        self.count(step, copy.make(step).map_err(shown))
    }

    /// The store's bytes aren't checked, so any will do, in both stores.
    fn scribble(&mut self) -> Result<(), String> {
        for _ in 0..self.maker.random.between(1, 200) {
            let at = self.maker.random.below(STORE);
            let byte = self.maker.random.draw() as u8;
            self.world.store[at] = byte;
            self.world.model.store[at] = byte;
        }
        self.remember("some bytes of the store are changed".to_string());
        Ok(())
    }

    fn count(&mut self, step: &Step, compared: Compared) -> Result<(), String> {
        let number = compared?.answer.number;
        self.tally.add(step.request.kind, number);
        Ok(())
    }

    fn remember(&mut self, line: String) {
        self.past.push_back(line);
        if self.past.len() > SHOWN {
            self.past.pop_front();
        }
    }

    fn told(&self, number: usize, step: &Step, difference: &str) -> String {
        let past: String = self.past.iter().map(|line| format!("  {line}\n")).collect();
        let words = step.in_words();
        format!(
            "step {number}: {words}\n{difference}the steps before, with what both gave:\n{past}"
        )
    }
}
