//! From a model and an estimate to text.

use crate::estimate::Estimate;
use crate::model::{BoxDef, Line, LineNo, Model};
use crate::names::{NameKind, NameNo, NameSet};

/// The width that a printed process keeps to where it can.
const WIDTH: usize = 78;

/// What each name is called.
#[derive(Clone, PartialEq, Eq, Debug)]
pub struct NameList(Vec<String>);

impl NameList {
    pub fn new(names: Vec<String>) -> NameList {
        NameList(names)
    }

    /// `n0`, `n1` and so on.
    pub fn numbered(count: usize) -> NameList {
        NameList((0..count).map(|number| format!("n{number}")).collect())
    }

    fn of(&self, name: NameNo) -> &str {
        &self.0[name.index()]
    }

    fn set(&self, set: NameSet) -> String {
        let names: Vec<&str> = set.into_iter().map(|name| self.of(name)).collect();
        format!("{{{}}}", names.join(", "))
    }
}

/// The text of a model, and of an estimate if there is one.
pub fn disassemble(model: &Model, estimate: Option<&Estimate>, names: &NameList) -> String {
    let mut text = declarations(model, names);
    for def in model.boxes() {
        text.push_str(&box_text(def, names));
    }
    if let Some(estimate) = estimate {
        text.push_str(&estimate_text(model, estimate, names));
    }
    text
}

fn kind_word(kind: NameKind) -> &'static str {
    match kind {
        NameKind::Free => "free",
        NameKind::Restricted => "restricted",
        NameKind::Received => "received",
        NameKind::Exposed => "exposed",
    }
}

/// A line for each run of names of one kind.
fn declarations(model: &Model, names: &NameList) -> String {
    let mut text = String::new();
    let mut number = 0;
    for run in model.kinds().chunk_by(|one, next| one == next) {
        text.push_str(kind_word(run[0]));
        for _ in run {
            text.push(' ');
            text.push_str(names.of(NameNo(number)));
            number += 1;
        }
        text.push('\n');
    }
    text
}

fn box_text(def: &BoxDef, names: &NameList) -> String {
    let mut text = String::from("box\n");
    for site in def.sites() {
        let word = if site.hidden { "hidden" } else { "site" };
        text.push_str(&format!("  {word} {} {}\n", names.of(site.subject), names.set(site.ty)));
    }
    let printer = Printer { lines: def.lines(), names, labels: !in_preorder(def.lines()) };
    text.push_str(&format!("  {}\n", printer.whole(LineNo(0), 2)));
    text
}

/// Whether the lines are numbered top down, first child first.
fn in_preorder(lines: &[Line]) -> bool {
    let mut open = vec![LineNo(0)];
    for (number, line) in lines.iter().enumerate() {
        if open.pop() != Some(LineNo(number as u16)) {
            return false;
        }
        let children: Vec<LineNo> = line.children().collect();
        open.extend(children.into_iter().rev());
    }
    true
}

struct Printer<'a> {
    lines: &'a [Line],
    names: &'a NameList,
    labels: bool,
}

impl Printer<'_> {
    fn line(&self, at: LineNo) -> Line {
        self.lines[at.index()]
    }

    fn label(&self, at: LineNo) -> String {
        if self.labels { format!("@{} ", at.0) } else { String::new() }
    }

    /// A prefix and what it goes on with; `None` for nil and parallel.
    fn prefix(&self, line: Line) -> Option<(String, LineNo)> {
        let of = |name| self.names.of(name);
        match line {
            Line::Nil | Line::Parallel { .. } => None,
            Line::Replicate { next } => Some(("!".to_string(), next)),
            Line::Restrict { name, next } => Some((format!("new {}.", of(name)), next)),
            Line::Output { on, of: sent, next } => {
                Some((format!("{}<{}>.", of(on), of(sent)), next))
            }
            Line::Input { on, into, next } => Some((format!("{}({}).", of(on), of(into)), next)),
            Line::Expose { name, ty, next } => {
                Some((format!("expose {} {}.", of(name), self.names.set(ty)), next))
            }
            Line::Hide { on, next } => Some((format!("hide {}.", of(on)), next)),
            Line::Unhide { on, next } => Some((format!("unhide {}.", of(on)), next)),
        }
    }

    /// A whole process: parallel parts stand without brackets, unless they
    /// carry labels, on one text line or on one each.
    fn whole(&self, at: LineNo, indent: usize) -> String {
        let flat = self.flat_chain(at);
        if indent + flat.len() <= WIDTH {
            return flat;
        }
        let parts = self.chain(at);
        let parts: Vec<String> = parts.into_iter().map(|at| self.part(at, indent + 2)).collect();
        parts.join(&format!("\n{}| ", " ".repeat(indent)))
    }

    /// The parts of a process that bars group to the right.
    fn chain(&self, at: LineNo) -> Vec<LineNo> {
        let mut parts = Vec::new();
        let mut rest = at;
        while let (Line::Parallel { first, second }, false) = (self.line(rest), self.labels) {
            parts.push(first);
            rest = second;
        }
        parts.push(rest);
        parts
    }

    /// A process as a part of another, on as many text lines as it takes.
    fn part(&self, at: LineNo, indent: usize) -> String {
        let flat = self.flat(at);
        if indent + flat.len() <= WIDTH {
            return flat;
        }
        let label = self.label(at);
        if let Some((prefix, next)) = self.prefix(self.line(at)) {
            return format!("{label}{prefix}{}", self.part(next, indent));
        }
        let Line::Parallel { first, second } = self.line(at) else {
            return flat;
        };
        let inner = indent + 2;
        let blanks = " ".repeat(inner);
        let (left, right) = (self.part(first, inner), self.part(second, inner + 2));
        format!("{label}(\n{blanks}{left}\n{blanks}| {right})")
    }

    /// A part on one text line.
    fn flat(&self, at: LineNo) -> String {
        let label = self.label(at);
        match self.line(at) {
            Line::Nil => format!("{label}0"),
            Line::Parallel { first, second } => {
                format!("{label}({} | {})", self.flat(first), self.flat_chain(second))
            }
            line => match self.prefix(line) {
                Some((prefix, next)) => format!("{label}{prefix}{}", self.flat(next)),
                None => label,
            },
        }
    }

    /// What stands after a bar: a further bar needs no brackets.
    fn flat_chain(&self, at: LineNo) -> String {
        match self.line(at) {
            Line::Parallel { first, second } if !self.labels => {
                format!("{} | {}", self.flat(first), self.flat_chain(second))
            }
            _ => self.flat(at),
        }
    }
}

fn estimate_text(model: &Model, estimate: &Estimate, names: &NameList) -> String {
    let mut text = String::from("estimate\n");
    let listed = model.listed();
    text.push_str(&sets_text("rho", listed, &estimate.rho, names));
    for (box_no, sets) in estimate.boxes[..model.boxes().len()].iter().enumerate() {
        text.push_str(&format!("box {box_no}\n"));
        for (word, set) in [("shown", sets.shown), ("hidden", sets.hidden)] {
            if !set.is_empty() {
                text.push_str(&format!("  {word} {}\n", names.set(set)));
            }
        }
        text.push_str(&sets_text("  eps", listed, &sets.eps, names));
        text.push_str(&sets_text("  kap", listed, &sets.kap, names));
    }
    text
}

/// The sets that are not empty, a text line each.
fn sets_text(word: &str, listed: NameSet, sets: &[NameSet], names: &NameList) -> String {
    let full = listed.into_iter().filter(|name| !sets[name.index()].is_empty());
    let lines =
        full.map(|name| format!("{word} {} {}\n", names.of(name), names.set(sets[name.index()])));
    lines.collect()
}
