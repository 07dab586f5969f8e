//! What is not the same on two sides, in words.

use std::fmt::Debug;
use udphost::raw;

/// Who the two are that are compared.
pub type Sides = [&'static str; 2];
pub const HOSTS: Sides = ["proved host", "model"];
pub const METHOD: Sides = ["method", "library"];

pub fn same<T: Debug + PartialEq>(
    sides: Sides,
    what: &str,
    one: &T,
    other: &T,
) -> Result<(), String> {
    if one == other {
        return Ok(());
    }
    let both = both(sides, format!("{one:?}"), format!("{other:?}"));
    Err(format!("{what} differs\n{both}"))
}

fn both(sides: Sides, one: String, other: String) -> String {
    format!("  {}: {one}\n  {}: {other}\n", sides[0], sides[1])
}

pub fn same_record(sides: Sides, one: &raw::Record, other: &raw::Record) -> Result<(), String> {
    if one == other {
        return Ok(());
    }
    let [left, right] = sides;
    let parts = parts_that_differ(one, other);
    Err(format!("the record differs; {left}, then {right}\n{parts}"))
}

pub fn same_answer(sides: Sides, one: &raw::Answer, other: &raw::Answer) -> Result<(), String> {
    if one == other {
        return Ok(());
    }
    let both = both(sides, answer_in_words(one), answer_in_words(other));
    Err(format!("the answer differs\n{both}"))
}

/// The number, and the fields that are not 0.
fn answer_in_words(answer: &raw::Answer) -> String {
    let fields: [(&str, u32); 7] = [
        ("descriptor", answer.descriptor.into()),
        ("address", answer.address),
        ("port", answer.port.into()),
        ("length", answer.len.into()),
        ("value", answer.value.into()),
        ("readable", answer.readable.into()),
        ("writable", answer.writable.into()),
    ];
    let used = fields.iter().filter(|field| field.1 != 0);
    let mut words = answer.number.to_string();
    words.extend(used.map(|(name, value)| format!(", {name} {value}")));
    if answer.item != raw::OutItem::default() {
        words += &format!(", {:?}", answer.item);
    }
    words
}

pub fn same_bytes(sides: Sides, what: &str, one: &[u8], other: &[u8]) -> Result<(), String> {
    if one == other {
        return Ok(());
    }
    let at = first_difference(one, other);
    let byte = |bytes: &[u8]| bytes.get(at).map_or("none".to_string(), u8::to_string);
    let both = both(sides, byte(one), byte(other));
    Err(format!("{what} differs, first at byte {at}\n{both}"))
}

pub fn first_difference(one: &[u8], other: &[u8]) -> usize {
    one.iter().zip(other).take_while(|(a, b)| a == b).count()
}

/// Each part that is not the same in both: the one, then the other.
pub fn parts_that_differ(one: &raw::Record, other: &raw::Record) -> String {
    let single = |r: &raw::Record| (r.icount, r.out.count, r.thread, r.awaited);
    let mut text = parts("interface", &one.interfaces, &other.interfaces);
    text += &parts("socket", &one.sockets, &other.sockets);
    text += &parts("head", &one.queues.heads, &other.queues.heads);
    text += &parts("queue count", &one.queues.counts, &other.queues.counts);
    text += &parts("out-item", &one.out.items, &other.out.items);
    text += &parts(
        "counts of interfaces and out-items, thread, awaited",
        &[single(one)],
        &[single(other)],
    );
    text
}

fn parts<T: Debug + PartialEq>(what: &str, one: &[T], other: &[T]) -> String {
    let both = one.iter().zip(other).enumerate();
    both.filter(|(_, (a, b))| a != b)
        .map(|(place, (a, b))| format!("  {what} {place}: {a:?}\n    {b:?}\n"))
        .collect()
}
