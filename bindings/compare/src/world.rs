//! Both hosts side by side, and what differs between them.

use crate::convert;
use crate::differences::*;
use crate::step::Step;
use model::host::{Answer, Host, OUT_SLOTS, SLOT, SOCKETS, STORE};
use udphost::raw;

/// The proved host's record and store, and the model with its own store.
#[derive(Clone)]
pub struct World {
    pub record: raw::Record,
    pub store: Vec<u8>,
    pub model: Host,
}

/// What the proved host gave, the same as the model: its answer and what is in
/// the lent buffer.
pub struct Made {
    pub answer: raw::Answer,
    pub buffer: Vec<u8>,
}

/// What both gave, or what differs in words.
pub type Compared = Result<Made, String>;

impl World {
    /// Opens both with a list, on a store that holds these bytes.
    pub fn open(list: &[raw::Interface], store: Vec<u8>) -> Result<(World, u8), String> {
        let mut proved = store.clone();
        let reply = raw::open(list, &mut proved);
        let interfaces: Vec<_> = list.iter().map(convert::interface).collect();
        let (model, answered) = Host::open(&interfaces, store);
        let world = World {
            record: reply.next,
            store: proved,
            model,
        };
        let (Ok(answer) | Err(answer)) = answered;
        world.compare(&reply.answer, &answer)?;
        Ok((world, reply.answer.number))
    }

    /// The proved host in the wrapper's type.
    pub fn host(&self) -> udphost::Host {
        udphost::Host::from_parts(self.record, self.store.clone().into())
    }

    pub fn same_as(&self, host: &udphost::Host) -> Result<(), String> {
        same_record(METHOD, host.record(), &self.record)?;
        same_bytes(METHOD, "the store", host.store(), &self.store)
    }

    /// Makes the step on both.
    pub fn make(&mut self, step: &Step) -> Compared {
        let mut proved = step.buffer.clone();
        let reply = raw::step(
            self.record,
            &mut self.store,
            step.request,
            &step.payload,
            &mut proved,
        );
        self.record = reply.next;
        let mut lent = step.buffer.clone();
        let answer = step.on_model(&mut self.model, &mut lent);
        self.compare(&reply.answer, &answer)?;
        same_bytes(HOSTS, "the buffer", &proved, &lent)?;
        Ok(Made {
            answer: reply.answer,
            buffer: proved,
        })
    }

    fn compare(&self, proved: &raw::Answer, answer: &Answer) -> Result<(), String> {
        same_answer(HOSTS, proved, &convert::answer(answer))?;
        match convert::host(&self.record) {
            Some(host) => self.same_host(&host)?,
            None => return Err(no_room(&self.record)),
        }
        same_bytes(HOSTS, "the store", &self.store, &self.model.store).map_err(|difference| {
            let at = first_difference(&self.store, &self.model.store);
            format!("{difference}{}", place(at))
        })
    }

    fn same_host(&self, proved: &Host) -> Result<(), String> {
        let model = &self.model;
        same(
            HOSTS,
            "the interfaces",
            &proved.interfaces,
            &model.interfaces,
        )?;
        for k in 0..SOCKETS {
            let what = format!("socket {k}");
            same(HOSTS, &what, &proved.sockets[k], &model.sockets[k])?;
        }
        same(HOSTS, "the out-queue", &proved.out_queue, &model.out_queue)?;
        same(HOSTS, "the thread", &proved.thread, &model.thread)
    }

    /// Makes the step on a record that the model has no room for: 1, and
    /// nothing changes.
    pub fn make_on_no_record(&mut self, record: raw::Record, step: &Step) -> Compared {
        let mut proved = step.buffer.clone();
        let before = self.store.clone();
        let reply = raw::step(
            record,
            &mut self.store,
            step.request,
            &step.payload,
            &mut proved,
        );
        let one = raw::Answer {
            number: 1,
            ..raw::Answer::default()
        };
        same_answer(HOSTS, &reply.answer, &one)?;
        same_record(HOSTS, &reply.next, &record)?;
        same_bytes(HOSTS, "the store", &self.store, &before)?;
        same_bytes(HOSTS, "the buffer", &proved, &step.buffer)?;
        Ok(Made {
            answer: reply.answer,
            buffer: proved,
        })
    }
}

/// Whose byte of the store this is.
fn place(at: usize) -> String {
    let byte = at % SLOT;
    match at {
        0..=0x7fff => {
            let slot = at / SLOT;
            format!("  socket {}, slot {}, byte {byte}\n", slot / 4, slot % 4)
        }
        OUT_SLOTS..=0x9fff => format!(
            "  out-queue, slot {}, byte {byte}\n",
            (at - OUT_SLOTS) / SLOT
        ),
        _ => String::new(),
    }
}

/// Shows all that is not 0.
fn no_room(record: &raw::Record) -> String {
    let parts = parts_that_differ(record, &raw::Record::default());
    format!("the proved record has something in an unused place, or a bad count\n{parts}")
}

const _: () = assert!(OUT_SLOTS == 0x8000 && STORE == 0xa000);
