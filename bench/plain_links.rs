//! The same work as `domain` and `problem` in plain Rust, for comparison: files are read and linked, and the lowest fault is named.
//! It accepts files without looking for the faults of reading, and proves nothing.
//!
//! Build: rustc --edition 2021 -O plain_links.rs. Usage: plain_links domain FILE, or plain_links problem DOMAIN PROBLEM.

use std::collections::hash_map::Entry;
use std::collections::{HashMap, HashSet};

type Name<'a> = &'a [u8];

// ---- words and lists

/// A word, or how many nodes are in a list; these stand behind it.
#[derive(Clone, Copy)]
enum Node<'a> {
    Word(Name<'a>),
    List(usize),
}

#[derive(Clone, Copy)]
enum Tree<'a> {
    Word(Name<'a>),
    List(&'a [Node<'a>]),
}

/// Trees whose nodes stand side by side.
struct Trees<'a>(&'a [Node<'a>]);

impl<'a> Iterator for Trees<'a> {
    type Item = Tree<'a>;

    fn next(&mut self) -> Option<Tree<'a>> {
        let (first, rest) = self.0.split_first()?;
        let (tree, behind) = match first {
            Node::Word(word) => (Tree::Word(word), rest),
            Node::List(count) => (Tree::List(&rest[..*count]), &rest[*count..]),
        };
        self.0 = behind;
        Some(tree)
    }
}

impl<'a> Tree<'a> {
    fn items(self) -> &'a [Node<'a>] {
        match self {
            Tree::Word(_) => &[],
            Tree::List(items) => items,
        }
    }

    /// The name that a list begins with, or that stands alone, and what follows it in the list.
    fn parts(self) -> (Name<'a>, &'a [Node<'a>]) {
        match self {
            Tree::Word(word) => (word, &[]),
            Tree::List([Node::Word(head), rest @ ..]) => (head, rest),
            Tree::List(_) => (b"", &[]),
        }
    }
}

fn is_word_byte(byte: u8) -> bool {
    byte.is_ascii_alphanumeric() || byte == b'-' || byte == b'_'
}

fn run_length(text: &[u8], test: impl Fn(u8) -> bool) -> usize {
    text.iter().position(|byte| !test(*byte)).unwrap_or(text.len())
}

/// The words and lists of a text in lower case.
fn nodes(text: &[u8]) -> Vec<Node<'_>> {
    let mut nodes = Vec::new();
    let mut open = Vec::new();
    let mut at = 0;
    while at < text.len() {
        let rest = &text[at..];
        let length = match rest[0] {
            b' ' | b'\t' | b'\n' | b'\r' | 12 => 1,
            b';' => run_length(rest, |byte| byte != b'\n'),
            b'(' => {
                open.push(nodes.len());
                nodes.push(Node::List(0));
                1
            }
            b')' => {
                let list: usize = open.pop().expect("an opening");
                nodes[list] = Node::List(nodes.len() - list - 1);
                1
            }
            first => {
                let length = match first {
                    b'-' | b'=' => 1,
                    b'0'..=b'9' => run_length(rest, |byte| byte.is_ascii_digit() || byte == b'.'),
                    b'a'..=b'z' | b'?' | b':' => 1 + run_length(&rest[1..], is_word_byte),
                    byte => panic!("no word begins with {byte}"),
                };
                nodes.push(Node::Word(&rest[..length]));
                length
            }
        };
        at += length;
    }
    nodes
}

fn words<'a>(nodes: &'a [Node<'a>]) -> impl Iterator<Item = Name<'a>> {
    nodes.iter().filter_map(|node| match node {
        Node::Word(word) => Some(*word),
        Node::List(_) => None,
    })
}

/// The groups of a typed list: names, and the primitives of their type.
struct Groups<'a>(&'a [Node<'a>]);

impl<'a> Iterator for Groups<'a> {
    type Item = (&'a [Node<'a>], &'a [Node<'a>]);

    fn next(&mut self) -> Option<Self::Item> {
        if self.0.is_empty() {
            return None;
        }
        let count = self.0.iter().position(|node| matches!(node, Node::Word(b"-"))).unwrap_or(self.0.len());
        let (names, behind) = self.0.split_at(count);
        let (types, rest) = match behind {
            [_, Node::List(count), inside @ ..] => (&inside[1..*count], &inside[*count..]),
            [_, rest @ ..] => rest.split_at(1),
            [] => (&[Node::Word(b"object")][..], behind),
        };
        self.0 = rest;
        Some((names, types))
    }
}

const BILLION: u64 = 1_000_000_000;

fn billionths(number: &[u8]) -> u64 {
    let mut parts = number.splitn(2, |byte| *byte == b'.');
    let whole = parts.next().unwrap_or_default();
    let decimals = parts.next().unwrap_or_default();
    let places = (0..9).map(|place| decimals.get(place).copied().unwrap_or(b'0'));
    whole.iter().copied().chain(places).fold(0, |value, digit| value * 10 + u64::from(digit - b'0'))
}

struct File<'a> {
    name: Name<'a>,
    sections: &'a [Node<'a>],
}

impl<'a> File<'a> {
    fn of(nodes: &'a [Node<'a>]) -> File<'a> {
        match nodes {
            [_, _, Node::List(2), _, Node::Word(name), sections @ ..] => File { name, sections },
            _ => panic!("no file"),
        }
    }

    /// What stands in the sections of a keyword, in turn.
    fn all(&self, keyword: &'static [u8]) -> impl Iterator<Item = &'a [Node<'a>]> {
        Trees(self.sections).map(Tree::parts).filter(move |(head, _)| *head == keyword).map(|(_, items)| items)
    }

    fn section(&self, keyword: &'static [u8]) -> &'a [Node<'a>] {
        self.all(keyword).next().unwrap_or_default()
    }
}

// ---- what is known

type Fault<'a> = (u32, Name<'a>);

/// Numbers from a first to a last.
#[derive(Clone, Copy, PartialEq, Eq, PartialOrd, Ord)]
struct Span {
    first: u32,
    last: u32,
}

/// A type, by the place of its first span and that behind its last.
#[derive(Clone, Copy)]
struct Type {
    first: u32,
    end: u32,
}

impl Type {
    fn single(number: u32) -> Type {
        Type { first: number, end: number + 1 }
    }

    fn places(self) -> std::ops::Range<usize> {
        self.first as usize..self.end as usize
    }
}

/// A predicate or a function, and the places of its slots.
#[derive(Clone, Copy)]
struct Symbol {
    number: u32,
    first: u32,
    end: u32,
}

/// A variable that is bound, by its number: where it was bound before, its type, and how many objects fit that.
struct Bound {
    variable: usize,
    hidden: Option<u32>,
    of: Type,
    fitting: u32,
}

#[derive(Clone, Copy, PartialEq)]
enum Claim {
    Holds,
    Fails,
    Is(u64),
}

const TOTAL_COST: Name<'static> = b"total-cost";

/// One more than the largest ground size of a goal; it stands for all that are larger.
const TOO_LARGE: u64 = 1_000_001;

#[derive(Default)]
struct Linker<'a> {
    /// The lowest fault so far.
    fault: Option<Fault<'a>>,
    /// Types by their numbers, which are in pre-order: what is under one has the numbers of its span.
    types: HashMap<Name<'a>, u32>,
    type_count: u32,
    /// The span of each type, by its number, and behind those the spans of types with several primitives, none of which touch.
    spans: Vec<Span>,
    /// Whether a type fits another, where both have many spans.
    fits: HashMap<(u32, u32), bool>,
    /// Numbers of types with several primitives, as they are written for objects.
    eithers: HashMap<Vec<u32>, u32>,
    predicates: HashMap<Name<'a>, Symbol>,
    functions: HashMap<Name<'a>, Symbol>,
    total_cost: Option<Symbol>,
    slots: Vec<Type>,
    objects: HashMap<Name<'a>, u32>,
    object_types: Vec<u32>,
    /// How many objects have a type with a lower number; empty where there is no problem.
    lower: Vec<u32>,
    variables: HashMap<Name<'a>, usize>,
    /// Where each variable is bound in the scope, the innermost place.
    innermost: Vec<Option<u32>>,
    scope: Vec<Bound>,
}

impl<'a> Linker<'a> {
    fn report(&mut self, number: u32, word: Name<'a>) {
        if self.fault.is_none_or(|(lowest, _)| number < lowest) {
            self.fault = Some((number, word));
        }
    }

    // ---- types

    /// Numbers the types, or answers the first that stands twice or is above itself.
    fn add_types(&mut self, section: &'a [Node<'a>]) -> Result<(), Fault<'a>> {
        self.types.insert(b"object", 0);
        let mut parents: Vec<Option<u32>> = vec![None];
        for (names, above) in Groups(section) {
            let parent = words(above).map(|name| self.place(name, &mut parents)).next();
            for name in words(names) {
                let place = self.place(name, &mut parents);
                if parents[place as usize].is_some() {
                    return Err((21, name));
                }
                parents[place as usize] = parent;
            }
        }
        parents[0] = parents[0].filter(|parent| *parent != 0);
        parents[1..].iter_mut().for_each(|parent| *parent = parent.or(Some(0)));

        let count = parents.len();
        let (mut child, mut sibling) = (vec![0; count], vec![0; count]);
        for (place, parent) in parents.iter().enumerate().skip(1) {
            let parent = parent.unwrap_or(0) as usize;
            sibling[place] = child[parent];
            child[parent] = place;
        }
        let (mut order, mut numbers) = (Vec::with_capacity(count), vec![0; count]);
        let mut open = vec![0];
        while let Some(place) = open.pop() {
            numbers[place] = order.len() as u32;
            order.push(place);
            let mut next = child[place];
            while next != 0 {
                open.push(next);
                next = sibling[next];
            }
        }
        if parents[0].is_some() || order.len() < count {
            let is_round = rounds(&parents);
            let mut declared = Groups(section).flat_map(|(names, _)| words(names));
            let first = declared.find(|name| is_round[self.types[name] as usize]);
            return Err((22, first.expect("a declared type on each way round")));
        }
        self.type_count = count as u32;
        self.spans.extend((0..count as u32).map(|number| Span { first: number, last: number }));
        for number in (1..count).rev() {
            let parent = numbers[parents[order[number]].unwrap_or(0) as usize] as usize;
            self.spans[parent].last = self.spans[parent].last.max(self.spans[number].last);
        }
        self.types.values_mut().for_each(|place| *place = numbers[*place as usize]);
        Ok(())
    }

    fn place(&mut self, name: Name<'a>, parents: &mut Vec<Option<u32>>) -> u32 {
        let next = parents.len() as u32;
        let place = *self.types.entry(name).or_insert(next);
        if place == next {
            parents.push(None);
        }
        place
    }

    fn type_number(&mut self, name: Name<'a>) -> u32 {
        let number = self.types.get(name).copied();
        if number.is_none() {
            self.report(23, name);
        }
        number.unwrap_or(0)
    }

    fn type_of(&mut self, primitives: &'a [Node<'a>]) -> Type {
        if let [Node::Word(name)] = primitives {
            return Type::single(self.type_number(name));
        }
        let numbers: Vec<u32> = words(primitives).map(|name| self.type_number(name)).collect();
        let mut spans: Vec<Span> = numbers.iter().map(|number| self.spans[*number as usize]).collect();
        spans.sort_unstable();
        let first = self.spans.len();
        for span in spans {
            match self.spans[first..].last_mut() {
                Some(before) if span.first <= before.last + 1 => before.last = before.last.max(span.last),
                _ => self.spans.push(span),
            }
        }
        Type { first: first as u32, end: self.spans.len() as u32 }
    }

    fn fits(&mut self, of: Type, slot: Type) -> bool {
        let (spans, slots) = (&self.spans[of.places()], &self.spans[slot.places()]);
        if spans.len().min(slots.len()) < 8 {
            return lie_in(spans, slots);
        }
        *self.fits.entry((of.first, slot.first)).or_insert_with(|| lie_in(spans, slots))
    }

    /// How many objects fit a type.
    fn fitting(&self, of: Type) -> u32 {
        if self.lower.is_empty() {
            return 0;
        }
        self.spans[of.places()].iter().map(|span| self.lower[span.last as usize + 1] - self.lower[span.first as usize]).sum()
    }

    // ---- declarations

    fn add_objects(&mut self, section: &'a [Node<'a>]) {
        for (names, primitives) in Groups(section) {
            let of = match primitives {
                [Node::Word(name)] => self.type_number(name),
                _ => {
                    let numbers = words(primitives).map(|name| self.type_number(name)).collect();
                    let next = self.type_count + self.eithers.len() as u32;
                    *self.eithers.entry(numbers).or_insert(next)
                }
            };
            for name in words(names) {
                if primitives.len() > 1 {
                    self.report(25, name);
                }
                match self.objects.entry(name) {
                    Entry::Vacant(entry) => {
                        entry.insert(self.object_types.len() as u32);
                        self.object_types.push(of);
                    }
                    Entry::Occupied(entry) => {
                        if self.object_types[*entry.get() as usize] != of {
                            self.report(24, name);
                        }
                    }
                }
            }
        }
    }

    fn count_objects(&mut self) {
        self.lower = vec![0; self.type_count as usize + 1];
        for of in self.object_types.iter().filter(|of| **of < self.type_count) {
            self.lower[*of as usize + 1] += 1;
        }
        for number in 1..self.lower.len() {
            self.lower[number] += self.lower[number - 1];
        }
    }

    fn symbol(&mut self, parameters: &'a [Node<'a>]) -> Symbol {
        let first = self.slots.len() as u32;
        for (names, primitives) in Groups(parameters) {
            let of = self.type_of(primitives);
            self.slots.resize(self.slots.len() + names.len(), of);
        }
        let number = (self.predicates.len() + self.functions.len()) as u32;
        Symbol { number, first, end: self.slots.len() as u32 }
    }

    fn add_predicates(&mut self, section: &'a [Node<'a>]) {
        for signature in Trees(section) {
            let (name, parameters) = signature.parts();
            let symbol = self.symbol(parameters);
            if self.predicates.insert(name, symbol).is_some() {
                self.report(24, name);
            }
        }
    }

    fn add_functions(&mut self, section: &'a [Node<'a>]) {
        let mut trees = Trees(section);
        let mut group = None;
        while let Some(tree) = trees.next() {
            let (name, parameters) = tree.parts();
            if name == b"-" {
                let is_number = match trees.next() {
                    Some(Tree::Word(word)) => word == b"number",
                    other => matches!(other.map(Tree::items), Some([_, Node::Word(b"number")])),
                };
                match group.take() {
                    Some(first) if !is_number => self.report(32, first),
                    _ => {}
                }
                continue;
            }
            group = group.or(Some(name));
            let symbol = self.symbol(parameters);
            if self.functions.insert(name, symbol).is_some() {
                self.report(24, name);
            }
        }
        self.total_cost = self.functions.get(TOTAL_COST).copied();
    }

    // ---- places

    fn bind(&mut self, list: &'a [Node<'a>]) {
        let outer = self.scope.len() as u32;
        for (names, primitives) in Groups(list) {
            let of = self.type_of(primitives);
            let fitting = self.fitting(of);
            for name in words(names) {
                let next = self.innermost.len();
                let variable = *self.variables.entry(name).or_insert(next);
                if variable == next {
                    self.innermost.push(None);
                }
                let hidden = self.innermost[variable].replace(self.scope.len() as u32);
                if hidden.is_some_and(|place| place >= outer) {
                    self.report(24, &name[1..]);
                }
                self.scope.push(Bound { variable, hidden, of, fitting });
            }
        }
    }

    /// Leaves the scope behind so many variables, and answers the ground size of a quantifier of those that are left.
    fn leave(&mut self, outer: usize, body: u64) -> u64 {
        let mut size = 1 + body;
        for bound in self.scope.drain(outer..).rev() {
            self.innermost[bound.variable] = bound.hidden;
            size = TOO_LARGE.min(1 + u64::from(bound.fitting) * size);
        }
        size
    }

    /// The type of a term. Of an object its number is shown.
    fn term(&mut self, term: Name<'a>, show: &mut impl FnMut(u32)) -> Option<Type> {
        if term[0] == b'?' {
            let place = self.variables.get(term).and_then(|variable| self.innermost[*variable]);
            if place.is_none() {
                self.report(26, &term[1..]);
            }
            return place.map(|place| self.scope[place as usize].of);
        }
        let object = self.objects.get(term).copied();
        match object {
            Some(object) => show(object),
            None => self.report(26, term),
        }
        object.map(|object| Type::single(self.object_types[object as usize]))
    }

    fn application(&mut self, name: Name<'a>, symbol: Option<Symbol>, terms: &'a [Node<'a>], mut show: impl FnMut(u32)) {
        // behind these there may be types without spans
        if self.fault.is_some_and(|(lowest, _)| lowest < 26) {
            return;
        }
        let Some(symbol) = symbol else {
            return self.report(26, name);
        };
        let mut slots = symbol.first..symbol.end;
        let mut fit = true;
        for term in words(terms) {
            if let (Some(of), Some(slot)) = (self.term(term, &mut show), slots.next()) {
                fit = fit && self.fits(of, self.slots[slot as usize]);
            }
        }
        if terms.len() != (symbol.end - symbol.first) as usize {
            self.report(27, name);
        }
        if !fit {
            self.report(28, name);
        }
    }

    fn add_total_cost(&mut self) {
        match self.total_cost {
            None => self.report(26, TOTAL_COST),
            Some(symbol) if symbol.first < symbol.end => self.report(27, TOTAL_COST),
            Some(_) => {}
        }
    }

    /// Looks at a formula, and answers its ground size.
    fn formula(&mut self, tree: Tree<'a>) -> u64 {
        let (head, rest) = tree.parts();
        let mut parts = Trees(rest);
        let size = match head {
            b"" | b"and" | b"or" | b"not" | b"imply" => parts.map(|part| self.formula(part)).fold(1, |sum, size| sum + size),
            b"exists" | b"forall" => {
                let outer = self.scope.len();
                self.bind(parts.next().map(Tree::items).unwrap_or_default());
                let body = parts.map(|part| self.formula(part)).sum();
                self.leave(outer, body)
            }
            b"=" => {
                for term in words(rest) {
                    self.term(term, &mut |_| {});
                }
                1
            }
            _ => {
                self.application(head, self.predicates.get(head).copied(), rest, |_| {});
                1
            }
        };
        size.min(TOO_LARGE)
    }

    fn effect(&mut self, tree: Tree<'a>) {
        let (head, rest) = tree.parts();
        let mut parts = Trees(rest);
        match head {
            b"" | b"and" | b"not" => parts.for_each(|part| self.effect(part)),
            b"when" => {
                parts.next().map(|condition| self.formula(condition));
                parts.for_each(|part| self.effect(part));
            }
            b"forall" => {
                let outer = self.scope.len();
                self.bind(parts.next().map(Tree::items).unwrap_or_default());
                parts.for_each(|part| self.effect(part));
                self.leave(outer, 0);
            }
            b"increase" => {
                self.add_total_cost();
                let (amount, terms) = parts.nth(1).expect("an amount").parts();
                if !amount[0].is_ascii_digit() {
                    self.application(amount, self.functions.get(amount).copied(), terms, |_| {});
                } else if billionths(amount) % BILLION != 0 {
                    self.report(30, TOTAL_COST);
                }
            }
            _ => self.application(head, self.predicates.get(head).copied(), rest, |_| {}),
        }
    }

    fn action(&mut self, fields: &'a [Node<'a>]) {
        let (mut parameters, mut precondition, mut effect) = (&[][..], Tree::List(&[]), Tree::List(&[]));
        let mut fields = Trees(fields);
        while let (Some(keyword), Some(value)) = (fields.next(), fields.next()) {
            match keyword.parts().0 {
                b":parameters" => parameters = value.items(),
                b":precondition" => precondition = value,
                _ => effect = value,
            }
        }
        self.bind(parameters);
        self.formula(precondition);
        self.effect(effect);
        self.leave(0, 0);
    }

    fn init(&mut self, section: &'a [Node<'a>]) {
        // where no atom fails, those that hold contradict nothing
        let some_fail = Trees(section).any(|item| item.parts().0 == b"not");
        let mut ground = Vec::new();
        let mut claims = Vec::new();
        for item in Trees(section) {
            let (head, rest) = item.parts();
            let mut parts = Trees(rest);
            let (claim, (name, terms)) = match (head, parts.next(), parts.next()) {
                (b"=", Some(call), Some(value)) => (Claim::Is(billionths(value.parts().0)), call.parts()),
                (b"not", Some(atom), _) => (Claim::Fails, atom.parts()),
                _ => (Claim::Holds, (head, rest)),
            };
            let symbols = if let Claim::Is(_) = claim { &self.functions } else { &self.predicates };
            let symbol = symbols.get(name).copied();
            let start = ground.len();
            ground.push(symbol.map_or(0, |symbol| symbol.number));
            self.application(name, symbol, terms, |object| ground.push(object));
            if matches!(claim, Claim::Is(value) if value % BILLION != 0) {
                self.report(30, name);
            }
            if some_fail || claim != Claim::Holds {
                claims.push((claim, name, start..ground.len()));
            } else {
                ground.truncate(start);
            }
        }
        let mut first = HashMap::with_capacity(claims.len());
        for (claim, name, places) in claims {
            let before = *first.entry(&ground[places]).or_insert(claim);
            match claim {
                Claim::Is(value) if before != claim || name == TOTAL_COST && value != 0 => self.report(31, name),
                Claim::Holds | Claim::Fails if before != claim => self.report(29, name),
                _ => {}
            }
        }
    }

    fn metric(&mut self, section: &'a [Node<'a>]) {
        let mut parts = Trees(section).map(Tree::parts);
        match (parts.next(), parts.next()) {
            (Some((b"minimize", _)), Some((TOTAL_COST, []))) => self.add_total_cost(),
            (Some(_), _) => self.report(33, b""),
            _ => {}
        }
    }
}

/// For each place of a forest with ways round, whether it is on one.
fn rounds(parents: &[Option<u32>]) -> Vec<bool> {
    let mut walks = vec![None; parents.len()];
    let mut is_round = vec![false; parents.len()];
    for start in 0..parents.len() {
        let mut at = Some(start);
        while let Some(place) = at.filter(|place| walks[*place].is_none()) {
            walks[place] = Some(start);
            at = parents[place].map(|parent| parent as usize);
        }
        // a walk that comes to itself has found a way round
        while let Some(place) = at.filter(|place| walks[*place] == Some(start) && !is_round[*place]) {
            is_round[place] = true;
            at = parents[place].map(|parent| parent as usize);
        }
    }
    is_round
}

/// How many spans at the start pass a test that none passes behind the first which does not; at little cost where these are few.
fn passing(spans: &[Span], test: impl Fn(&Span) -> bool) -> usize {
    let (near, far) = spans.split_at(spans.len().min(4));
    near.iter().position(|span| !test(span)).unwrap_or_else(|| near.len() + far.partition_point(test))
}

/// Whether each of some spans lies in one of others, where both rise. All that lie in the same one are passed at once.
fn lie_in(mut spans: &[Span], mut others: &[Span]) -> bool {
    while let Some(span) = spans.first() {
        others = &others[passing(others, |other| other.last < span.first)..];
        match others.first() {
            Some(other) if other.first <= span.first && span.last <= other.last => {
                spans = &spans[passing(spans, |span| span.last <= other.last)..];
            }
            _ => return false,
        }
    }
    true
}

// ---- files

fn link<'a>(domain: &File<'a>, problem: Option<&File<'a>>) -> Option<Fault<'a>> {
    if let Some(name) = problem.and_then(|problem| words(problem.section(b":domain")).next()) {
        if name != domain.name {
            return Some((20, name));
        }
    }
    let mut linker = Linker::default();
    if let Err(fault) = linker.add_types(domain.section(b":types")) {
        return Some(fault);
    }
    linker.add_objects(domain.section(b":constants"));
    linker.add_predicates(domain.section(b":predicates"));
    linker.add_functions(domain.section(b":functions"));
    let mut actions = HashSet::new();
    for action in domain.all(b":action") {
        let name = words(&action[..1]).next().expect("a name");
        if !actions.insert(name) {
            linker.report(24, name);
        }
        linker.action(&action[1..]);
    }
    if let Some(problem) = problem {
        linker.add_objects(problem.section(b":objects"));
        linker.count_objects();
        linker.init(problem.section(b":init"));
        let size = Trees(problem.section(b":goal")).map(|goal| linker.formula(goal)).sum::<u64>();
        linker.metric(problem.section(b":metric"));
        if size == TOO_LARGE {
            linker.report(35, b"");
        }
    }
    linker.fault
}

const FAULTS: [&str; 16] = [
    "DomainName", "TypeTwice", "TypeCycle", "UnknownType", "NameTwice", "ObjectTypes", "UnknownName", "Arity", "ArgumentType",
    "InitContradiction", "FractionalCost", "CostValue", "ObjectFluent", "Metric", "", "GoalTooLarge",
];

fn main() {
    let arguments: Vec<String> = std::env::args().skip(1).collect();
    let read = |path| {
        let mut text = std::fs::read(path).expect("a file that opens");
        text.make_ascii_lowercase();
        text
    };
    let texts: Vec<Vec<u8>> = arguments[1..].iter().map(read).collect();
    let nodes: Vec<Vec<Node>> = texts.iter().map(|text| nodes(text)).collect();
    let files: Vec<File> = nodes.iter().map(|nodes| File::of(nodes)).collect();
    let spelled = |word| String::from_utf8_lossy(word).into_owned();
    match link(&files[0], files.get(1)) {
        None => println!("good: {} {}", arguments[0], spelled(files[files.len() - 1].name)),
        Some((number, word)) => println!("{}", format!("link: fault {number} {} {}", FAULTS[number as usize - 20], spelled(word)).trim_end()),
    }
}
