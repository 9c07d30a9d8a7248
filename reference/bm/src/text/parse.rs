//! From text to a draft of a model and an estimate.

use super::lex::{Kind, Parsed, TextError, TextPlace, Token, tokens};
use super::print::NameList;
use super::tree::{Label, NodeNo, Tree};
use crate::estimate::Estimate;
use crate::model::{Line, MAX_BOXES, MAX_LINES, MAX_SITES, Site};
use crate::names::{MAX_NAMES, NameKind, NameNo, NameSet};
use crate::shape::MAX_TYPE;
use crate::write::{Draft, DraftBox};

/// How deep brackets and prefixes may nest.
const MAX_DEPTH: usize = 400;
/// The hint at a kind of name that stands too late.
const NAMES_FIRST: &str = "names come before boxes and estimate";

/// What a text says.
#[derive(Clone, Debug)]
pub struct Assembled {
    pub model: Draft,
    /// The estimate, or the error that the text has none.
    pub estimate: Parsed<Estimate>,
    pub names: NameList,
}

/// Reads a text. The reader of images accepts the model that it gives.
pub fn assemble(text: &str) -> Parsed<Assembled> {
    let tokens = tokens(text)?;
    let mut parser = Parser {
        tokens: &tokens,
        after: None,
        names: Vec::new(),
        kinds: Vec::new(),
        subjects: NameSet::EMPTY,
        bound: NameSet::EMPTY,
        depth: 0,
    };
    parser.text()
}

struct Parser<'t> {
    tokens: &'t [Token<'t>],
    /// The place after the last token taken.
    after: Option<TextPlace>,
    names: Vec<&'t str>,
    kinds: Vec<NameKind>,
    /// The subjects of the sites so far.
    subjects: NameSet,
    /// The names bound by the lines so far.
    bound: NameSet,
    depth: usize,
}

impl<'t> Parser<'t> {
    fn peek(&self) -> Token<'t> {
        self.tokens[0]
    }

    fn take(&mut self) -> Token<'t> {
        let token = self.tokens[0];
        if token.kind != Kind::End {
            self.tokens = &self.tokens[1..];
            self.after = Some(token.after());
        }
        token
    }

    /// The error that something is missing before the next token. Its place
    /// is after the last token, unless the next is on the same text line.
    fn missing(&self, expected: impl Into<String>) -> TextError {
        let next = self.peek();
        let error = next.instead_of(expected);
        let Some(place) = self.after else {
            return error;
        };
        match next.kind {
            Kind::End => TextError { place, ..error },
            _ if next.place.line == place.line => error,
            _ => TextError { place, found: "the end of the line".to_string(), ..error },
        }
    }

    /// Takes the next token if it is of this kind.
    fn takes(&mut self, kind: Kind<'_>) -> bool {
        let is = self.peek().kind == kind;
        if is {
            self.take();
        }
        is
    }

    fn sign(&mut self, sign: char) -> Parsed<()> {
        if self.takes(Kind::Sign(sign)) {
            return Ok(());
        }
        Err(self.missing(format!("'{sign}'")))
    }

    /// Refuses a bracket where the papers have one and this form does not.
    fn no_bracket(&self, form: &str) -> Parsed<()> {
        let token = self.peek();
        if token.kind != Kind::Sign('(') {
            return Ok(());
        }
        Err(token.instead_of("a name").hint(format!("write '{form}'")))
    }

    fn number(&mut self, below: usize, what: &str) -> Parsed<usize> {
        let token = self.take();
        let Kind::Number(digits) = token.kind else {
            return Err(token.instead_of(what));
        };
        let number = digits.parse().ok().filter(|number| *number < below);
        number.ok_or_else(|| token.instead_of(format!("{what} below {below}")))
    }

    fn text(&mut self) -> Parsed<Assembled> {
        while let Some(kind) = self.declared_kind() {
            self.declaration(kind)?;
        }
        let mut boxes = Vec::new();
        while self.peek().kind == Kind::Keyword("box") {
            let token = self.take();
            if boxes.len() == MAX_BOXES {
                return Err(token.instead_of("at most 8 boxes"));
            }
            boxes.push(self.box_def()?);
        }
        let estimate = if self.takes(Kind::Keyword("estimate")) {
            Ok(self.estimate(boxes.len())?)
        } else {
            Err(self.missing("'estimate'"))
        };
        if self.peek().kind != Kind::End {
            return Err(self.after_boxes(boxes.len()));
        }
        let names = NameList::new(self.names.iter().map(|name| name.to_string()).collect());
        let kinds = std::mem::take(&mut self.kinds);
        Ok(Assembled { model: Draft { kinds, boxes }, estimate, names })
    }

    /// The error at what follows the names and boxes, which is no estimate.
    fn after_boxes(&self, boxes: usize) -> TextError {
        let token = self.peek();
        if boxes == 0 {
            return token.instead_of("a kind of name, 'box' or 'estimate'");
        }
        let error = token.instead_of("'|', 'box' or 'estimate'");
        match token.kind {
            Kind::Keyword("site" | "hidden") => {
                error.hint("the sites of a box come before its process")
            }
            kind if kind_of_name(kind).is_some() => error.hint(NAMES_FIRST),
            _ => error,
        }
    }

    fn declared_kind(&mut self) -> Option<NameKind> {
        let kind = kind_of_name(self.peek().kind)?;
        self.take();
        Some(kind)
    }

    /// The names after their kind. They get numbers in order.
    fn declaration(&mut self, kind: NameKind) -> Parsed<()> {
        let mut declared = 0;
        while let Kind::Name(name) = self.peek().kind {
            let token = self.take();
            if self.names.contains(&name) {
                return Err(token.instead_of("a name not declared yet"));
            }
            if self.names.len() == MAX_NAMES {
                return Err(token.instead_of("at most 60 names"));
            }
            self.names.push(name);
            self.kinds.push(kind);
            declared += 1;
        }
        if declared == 0 { Err(self.missing("a name")) } else { Ok(()) }
    }

    /// A declared name.
    fn name(&mut self) -> Parsed<(NameNo, Token<'t>)> {
        let token = self.take();
        let Kind::Name(name) = token.kind else {
            return Err(token.instead_of("a name"));
        };
        let at = self.names.iter().position(|declared| *declared == name);
        let at = at.ok_or_else(|| token.instead_of("a declared name"))?;
        Ok((NameNo(at as u8), token))
    }

    fn name_of_kind(&mut self, kind: NameKind, what: &str) -> Parsed<(NameNo, Token<'t>)> {
        let (name, token) = self.name()?;
        if self.kinds[name.index()] == kind {
            Ok((name, token))
        } else {
            Err(token.instead_of(what))
        }
    }

    /// A name that is free or bound above.
    fn used(&mut self, scope: NameSet) -> Parsed<NameNo> {
        let (name, token) = self.name()?;
        if self.kinds[name.index()] == NameKind::Free || scope.has(name) {
            Ok(name)
        } else {
            Err(token.instead_of("a free name or one bound above"))
        }
    }

    /// A name of this kind, bound here and nowhere else.
    fn binder(&mut self, kind: NameKind, what: &str) -> Parsed<NameNo> {
        let (name, token) = self.name_of_kind(kind, what)?;
        if self.bound.has(name) {
            return Err(token.instead_of("a name that no other line binds"));
        }
        self.bound = self.bound.with(name);
        Ok(name)
    }

    /// Names in braces, parted by commas, each read by `one`, which is given
    /// those before.
    fn set(&mut self, one: impl Fn(&mut Self, NameSet) -> Parsed<NameNo>) -> Parsed<NameSet> {
        self.sign('{')?;
        let mut set = NameSet::EMPTY;
        if self.takes(Kind::Sign('}')) {
            return Ok(set);
        }
        loop {
            let token = self.peek();
            let name = one(self, set)?;
            if set.has(name) {
                return Err(token.instead_of("a name not yet in the set"));
            }
            set = set.with(name);
            if self.takes(Kind::Sign('}')) {
                return Ok(set);
            }
            if !self.takes(Kind::Sign(',')) {
                return Err(self.missing("',' or '}'"));
            }
        }
    }

    /// A type: 1 to 8 names, not the subject.
    fn ty(
        &mut self,
        subject: NameNo,
        one: impl Fn(&mut Self) -> Parsed<NameNo>,
    ) -> Parsed<NameSet> {
        let subject = self.names[subject.index()];
        if let [open, close, ..] = self.tokens
            && (open.kind, close.kind) == (Kind::Sign('{'), Kind::Sign('}'))
        {
            return Err(close.instead_of(format!("1 to 8 names in the type of '{subject}'")));
        }
        self.set(|parser, before| {
            let token = parser.peek();
            if token.kind == Kind::Name(subject) {
                let expected = format!("names other than '{subject}' in the type of '{subject}'");
                return Err(token.instead_of(expected));
            }
            if before.len() == MAX_TYPE {
                return Err(token.instead_of(format!("at most 8 names in the type of '{subject}'")));
            }
            one(parser)
        })
    }

    fn box_def(&mut self) -> Parsed<DraftBox> {
        let mut sites = Vec::new();
        while let Kind::Keyword(word @ ("site" | "hidden")) = self.peek().kind {
            let token = self.take();
            if sites.len() == MAX_SITES {
                return Err(token.instead_of("at most 16 sites"));
            }
            sites.push(self.site(word == "hidden")?);
        }
        if sites.is_empty() {
            return Err(self.peek().instead_of("'site' or 'hidden'"));
        }
        let mut tree = Tree::default();
        let root = self.parallel(&mut tree, NameSet::EMPTY)?;
        Ok(DraftBox { sites, lines: tree.lines(root)? })
    }

    fn site(&mut self, hidden: bool) -> Parsed<Site> {
        self.no_bracket(if hidden { "hidden x {c, d}" } else { "site x {c, d}" })?;
        let (subject, token) = self.name_of_kind(NameKind::Free, "a free name")?;
        if self.subjects.has(subject) {
            return Err(token.instead_of("a name that no other site has"));
        }
        self.subjects = self.subjects.with(subject);
        let ty = self.ty(subject, |parser| {
            parser.name_of_kind(NameKind::Free, "a free name").map(|(name, _)| name)
        })?;
        Ok(Site { subject, hidden, ty })
    }

    /// One or more parts with bars between; the bars group to the right.
    fn parallel(&mut self, tree: &mut Tree<'t>, scope: NameSet) -> Parsed<NodeNo> {
        let first = self.part(tree, scope)?;
        let bar = self.peek();
        if !self.takes(Kind::Sign('|')) {
            return Ok(first);
        }
        let node = tree.add(bar, None)?;
        let second = self.parallel(tree, scope)?;
        tree.set(node, Line::Parallel { first, second });
        Ok(node)
    }

    fn part(&mut self, tree: &mut Tree<'t>, scope: NameSet) -> Parsed<NodeNo> {
        self.depth += 1;
        if self.depth > MAX_DEPTH {
            return Err(self.peek().instead_of("at most 400 levels of brackets and prefixes"));
        }
        let at = self.peek();
        let label = if self.takes(Kind::Sign('@')) {
            Some((self.number(MAX_LINES, "a line number")?, at))
        } else {
            None
        };
        let node = match self.peek().kind {
            Kind::Sign('(') => self.group(tree, scope, label)?,
            _ => self.line(tree, scope, label)?,
        };
        self.depth -= 1;
        Ok(node)
    }

    /// Brackets; a label before them is that of what they hold.
    fn group(
        &mut self,
        tree: &mut Tree<'t>,
        scope: NameSet,
        label: Option<Label<'t>>,
    ) -> Parsed<NodeNo> {
        self.sign('(')?;
        let node = self.parallel(tree, scope)?;
        self.sign(')')?;
        if let Some((_, token)) = label {
            if tree.nodes[node.index()].label.is_some() {
                return Err(token.instead_of("one label for a line"));
            }
            tree.nodes[node.index()].label = label;
        }
        Ok(node)
    }

    fn line(
        &mut self,
        tree: &mut Tree<'t>,
        scope: NameSet,
        label: Option<Label<'t>>,
    ) -> Parsed<NodeNo> {
        let token = self.peek();
        let node = tree.add(token, label)?;
        let line = match token.kind {
            Kind::Number("0") => {
                self.take();
                Line::Nil
            }
            Kind::Sign('!') => {
                self.take();
                Line::Replicate { next: self.part(tree, scope)? }
            }
            Kind::Keyword(word @ ("new" | "expose" | "hide" | "unhide")) => {
                self.take();
                self.worded(tree, scope, word)?
            }
            Kind::Name(_) => self.communication(tree, scope)?,
            _ => return Err(self.no_process()),
        };
        tree.set(node, line);
        Ok(node)
    }

    /// The error that no process stands here.
    fn no_process(&self) -> TextError {
        let token = self.peek();
        match token.kind {
            kind if kind_of_name(kind).is_some() => token.instead_of("a process").hint(NAMES_FIRST),
            Kind::End | Kind::Keyword(_) | Kind::Sign('|' | ')') => self.missing("a process"),
            _ => token.instead_of("a process"),
        }
    }

    /// The full stop after a prefix, and what follows.
    fn rest(&mut self, tree: &mut Tree<'t>, scope: NameSet) -> Parsed<NodeNo> {
        if !self.takes(Kind::Sign('.')) {
            let error = self.missing("'.' and a process");
            return Err(error.hint("write '.0' where nothing follows"));
        }
        self.part(tree, scope)
    }

    /// A prefix that begins with a word: `new`, `expose`, `hide`, else `unhide`.
    fn worded(&mut self, tree: &mut Tree<'t>, scope: NameSet, word: &str) -> Parsed<Line> {
        match word {
            "new" => {
                self.no_bracket("new n.P")?;
                let name = self.binder(NameKind::Restricted, "a restricted name")?;
                Ok(Line::Restrict { name, next: self.rest(tree, scope.with(name))? })
            }
            "expose" => {
                self.no_bracket("expose x {c, d}.P")?;
                let name = self.binder(NameKind::Exposed, "an exposed name")?;
                let ty = self.ty(name, |parser| parser.used(scope))?;
                Ok(Line::Expose { name, ty, next: self.rest(tree, scope.with(name))? })
            }
            "hide" => {
                self.no_bracket("hide x.P")?;
                let on = self.used(scope)?;
                Ok(Line::Hide { on, next: self.rest(tree, scope)? })
            }
            _ => {
                self.no_bracket("unhide x.P")?;
                let on = self.used(scope)?;
                Ok(Line::Unhide { on, next: self.rest(tree, scope)? })
            }
        }
    }

    /// An input or an output.
    fn communication(&mut self, tree: &mut Tree<'t>, scope: NameSet) -> Parsed<Line> {
        self.no_nil()?;
        let on = self.used(scope)?;
        match self.peek().kind {
            Kind::Sign('(') => {
                self.take();
                let into = self.binder(NameKind::Received, "a received name")?;
                self.sign(')')?;
                Ok(Line::Input { on, into, next: self.rest(tree, scope.with(into))? })
            }
            Kind::Sign('<') => {
                self.take();
                let of = self.used(scope)?;
                self.sign('>')?;
                Ok(Line::Output { on, of, next: self.rest(tree, scope)? })
            }
            _ => Err(self.missing("'(' or '<'")),
        }
    }

    /// Refuses `nil`, unless it is the name of a channel.
    fn no_nil(&self) -> Parsed<()> {
        let [token, next, ..] = self.tokens else {
            return Ok(());
        };
        match (token.kind, next.kind) {
            (Kind::Name("nil"), Kind::Sign('(' | '<')) => Ok(()),
            (Kind::Name("nil"), _) => Err(token.instead_of("a process").hint("nil is written '0'")),
            _ => Ok(()),
        }
    }

    /// The estimate's part: sets that are not given are empty.
    fn estimate(&mut self, boxes: usize) -> Parsed<Estimate> {
        let mut estimate = Estimate::EMPTY;
        let mut given = NameSet::EMPTY;
        while self.takes(Kind::Keyword("rho")) {
            self.named_set(&mut estimate.rho, &mut given)?;
        }
        let mut next_box = 0;
        while boxes > 0 && self.takes(Kind::Keyword("box")) {
            let token = self.peek();
            let box_no = self.number(boxes, "a box number")?;
            if box_no < next_box {
                return Err(token.instead_of("a box after the one before"));
            }
            next_box = box_no + 1;
            self.box_sets(&mut estimate.boxes[box_no])?;
        }
        match self.peek().kind {
            Kind::End => Ok(estimate),
            _ => Err(self.after_sets(boxes, next_box > 0)),
        }
    }

    /// The error at what follows an estimate's sets, those of a box if `in_box`.
    fn after_sets(&self, boxes: usize, in_box: bool) -> TextError {
        let token = self.peek();
        let expected = match (boxes, in_box) {
            (0, _) => "'rho'",
            (_, false) => "'rho' or 'box'",
            (_, true) => "'shown', 'hidden', 'eps', 'kap' or 'box'",
        };
        let error = token.instead_of(expected);
        match token.kind {
            Kind::Keyword("box" | "shown" | "hidden" | "eps" | "kap") if boxes == 0 => {
                error.hint("the model has no box")
            }
            Kind::Keyword("rho") => error.hint("the sets of rho come before the boxes"),
            Kind::Keyword("shown" | "hidden" | "eps" | "kap") => {
                error.hint("a box's sets come after 'box' and its number")
            }
            kind if kind_of_name(kind).is_some() => error.hint(NAMES_FIRST),
            _ => error,
        }
    }

    fn box_sets(&mut self, sets: &mut crate::estimate::BoxSets) -> Parsed<()> {
        let (mut eps, mut kap) = (NameSet::EMPTY, NameSet::EMPTY);
        let mut iota = [false; 2];
        while let Kind::Keyword(word @ ("shown" | "hidden" | "eps" | "kap")) = self.peek().kind {
            let token = self.take();
            match word {
                "eps" => self.named_set(&mut sets.eps, &mut eps)?,
                "kap" => self.named_set(&mut sets.kap, &mut kap)?,
                _ => {
                    let hidden = word == "hidden";
                    if std::mem::replace(&mut iota[usize::from(hidden)], true) {
                        return Err(token.instead_of("each set of a box once"));
                    }
                    let set = if hidden { &mut sets.hidden } else { &mut sets.shown };
                    *set = self.any_set()?;
                }
            }
        }
        Ok(())
    }

    fn any_set(&mut self) -> Parsed<NameSet> {
        self.set(|parser, _| parser.name().map(|(name, _)| name))
    }

    /// A name and its set.
    fn named_set(&mut self, sets: &mut [NameSet; MAX_NAMES], given: &mut NameSet) -> Parsed<()> {
        let (name, token) = self.name()?;
        if given.has(name) {
            return Err(token.instead_of("each name's set once"));
        }
        *given = given.with(name);
        sets[name.index()] = self.any_set()?;
        Ok(())
    }
}

/// The kind of name that a word begins a list of.
fn kind_of_name(kind: Kind<'_>) -> Option<NameKind> {
    match kind {
        Kind::Keyword("free") => Some(NameKind::Free),
        Kind::Keyword("restricted") => Some(NameKind::Restricted),
        Kind::Keyword("received") => Some(NameKind::Received),
        Kind::Keyword("exposed") => Some(NameKind::Exposed),
        _ => None,
    }
}
