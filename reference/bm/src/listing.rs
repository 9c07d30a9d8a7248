//! Plain listings of what was read, one item a line.

use std::fmt::Write;

use crate::estimate::Estimate;
use crate::model::Model;
use crate::names::Held;
use crate::state::{Record, Thread, records};
use crate::write::line_record;

/// The listing of a model:
///
/// ```text
/// names COUNT
/// name NUMBER KIND
/// boxes COUNT
/// box NUMBER sites COUNT lines COUNT
/// site BOX NUMBER SUBJECT HIDDEN {TYPE}
/// line BOX NUMBER OPERATION FIRST SECOND CHILD CHILD {TYPE}
/// ```
pub fn model(model: &Model) -> String {
    let mut text = String::new();
    let out = &mut text;
    put(out, format_args!("names {}", model.kinds().len()));
    for (number, kind) in model.kinds().iter().enumerate() {
        put(out, format_args!("name {number} {}", *kind as u8));
    }
    put(out, format_args!("boxes {}", model.boxes().len()));
    for (box_no, def) in model.boxes().iter().enumerate() {
        let (sites, lines) = (def.sites(), def.lines());
        put(out, format_args!("box {box_no} sites {} lines {}", sites.len(), lines.len()));
        for (at, site) in sites.iter().enumerate() {
            let hidden = u8::from(site.hidden);
            put(out, format_args!("site {box_no} {at} {} {hidden} {}", site.subject, site.ty));
        }
        for (at, line) in lines.iter().enumerate() {
            put(out, format_args!("line {box_no} {at} {}", line_fields(&line_record(line))));
        }
    }
    text
}

/// The fields of a line's record.
fn line_fields(record: &[u8; 16]) -> String {
    let child = |at| u16::from_le_bytes([record[at], record[at + 1]]);
    let (words, _) = record.as_chunks::<8>();
    let ty = crate::NameSet(u64::from_le_bytes(words[1]));
    let [operation, first, second, ..] = record;
    format!("{operation} {first} {second} {} {} {ty}", child(4), child(6))
}

/// The listing of an estimate: for each name `rho NAME {SET}`, then for each
/// box `shown BOX {SET}` and `hidden BOX {SET}`, and for each name
/// `eps BOX NAME {SET}`, then for each name `kap BOX NAME {SET}`.
pub fn estimate(model: &Model, estimate: &Estimate) -> String {
    let mut text = String::new();
    let out = &mut text;
    for name in model.listed() {
        put(out, format_args!("rho {name} {}", estimate.rho(name)));
    }
    for (box_no, sets) in estimate.boxes[..model.boxes().len()].iter().enumerate() {
        put(out, format_args!("shown {box_no} {}", sets.shown));
        put(out, format_args!("hidden {box_no} {}", sets.hidden));
        for name in model.listed() {
            put(out, format_args!("eps {box_no} {name} {}", sets.eps(name)));
        }
        for name in model.listed() {
            put(out, format_args!("kap {box_no} {name} {}", sets.kap(name)));
        }
    }
    text
}

/// The threads of a state's first boxes: for each box `box NUMBER STAMP`, for
/// each of its threads `line NUMBER`, and for each name that a thread has bound
/// `name NAME NUMBER STAMP`, all with a space before, on one line.
pub fn threads(boxes: usize, words: &[u32]) -> String {
    let mut text = String::new();
    let boxes = records(words).map_or(&[][..], |records| &records[..boxes]);
    for (box_no, record) in boxes.iter().enumerate() {
        let record = Record(record);
        text.push_str(&format!(" box {box_no} {}", record.stamp()));
        text.extend(record.threads().map(thread));
    }
    text
}

/// A thread's line and what it has bound.
fn thread(thread: Thread<'_>) -> String {
    let Thread([line, bindings @ ..]) = thread;
    let bound = bindings.iter().enumerate().filter(|(_, word)| **word != 0);
    let bound = bound.map(|(name, word)| {
        let held = Held(*word);
        format!(" name {name} {} {}", held.name(), held.stamp())
    });
    format!(" line {line}{}", bound.collect::<String>())
}

fn put(text: &mut String, item: std::fmt::Arguments<'_>) {
    writeln!(text, "{item}").expect("a string takes all text");
}
