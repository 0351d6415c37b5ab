//! The same work as `plan` in plain Rust, for comparison: a domain, a problem and a plan are read, each step is applied happening by
//! happening, and interference is looked for. It accepts files without looking for their faults, and proves nothing.
//!
//! Build: rustc --edition 2021 -O plain_plans.rs. Usage: plain_plans DOMAIN PROBLEM PLAN.

use std::collections::{BTreeMap, HashMap, HashSet};
use std::rc::Rc;

// ---- trees

enum Tree {
    Word(Rc<str>),
    List(Vec<Tree>),
}

impl Tree {
    fn word(&self) -> &Rc<str> {
        match self {
            Tree::Word(word) => word,
            Tree::List(_) => panic!("a word is wanted"),
        }
    }

    fn items(&self) -> &[Tree] {
        match self {
            Tree::Word(_) => &[],
            Tree::List(items) => items,
        }
    }

    fn head(&self) -> &str {
        match self {
            Tree::Word(word) => word,
            Tree::List(items) => items.first().map_or("", |first| first.word()),
        }
    }
}

fn trees(text: &str) -> Vec<Tree> {
    let mut open = vec![Vec::new()];
    for line in text.lines() {
        let mut rest = line.split(';').next().unwrap_or("");
        while let Some(start) = rest.find(|c: char| !c.is_whitespace()) {
            rest = &rest[start..];
            let (word, length) = match rest.as_bytes()[0] {
                b'(' => {
                    open.push(Vec::new());
                    (None, 1)
                }
                b')' => (open.pop().map(Tree::List), 1),
                _ => {
                    let length = rest.find(|c: char| c.is_whitespace() || c == '(' || c == ')').unwrap_or(rest.len());
                    (Some(Tree::Word(rest[..length].to_ascii_lowercase().into())), length)
                }
            };
            rest = &rest[length..];
            if let Some(tree) = word {
                open.last_mut().expect("an opening").push(tree);
            }
        }
    }
    open.pop().expect("items")
}

fn typed(items: &[Tree]) -> Vec<(Rc<str>, Vec<Rc<str>>)> {
    let mut all = Vec::new();
    let mut group = Vec::new();
    let mut rest = items.iter();
    while let Some(item) = rest.next() {
        if item.head() == "-" {
            let types: Vec<Rc<str>> = match rest.next().expect("a type") {
                Tree::Word(word) => vec![word.clone()],
                Tree::List(names) => names[1..].iter().map(|name| name.word().clone()).collect(),
            };
            all.extend(group.drain(..).map(|name: Rc<str>| (name, types.clone())));
        } else {
            group.push(item.word().clone());
        }
    }
    all.extend(group.into_iter().map(|name| (name, vec!["object".into()])));
    all
}

// ---- compiled actions

enum Term {
    Object(u32),
    Place(usize),
}

struct Pattern {
    predicate: u32,
    terms: Vec<Term>,
}

enum Formula {
    Atom(Pattern),
    Equal(Term, Term),
    Not(Box<Formula>),
    And(Vec<Formula>),
    Or(Vec<Formula>),
    Imply(Box<Formula>, Box<Formula>),
    Quantified(bool, Vec<Vec<u32>>, Box<Formula>),
}

enum Effect {
    And(Vec<Effect>),
    Forall(Vec<Vec<u32>>, Box<Effect>),
    When(Formula, Box<Effect>),
    Add(Pattern),
    Delete(Pattern),
    Cost(u64),
    CostOf(Pattern),
}

struct Action {
    precondition: Formula,
    effect: Effect,
}

#[derive(Default)]
struct Task {
    parents: HashMap<Rc<str>, Rc<str>>,
    objects: HashMap<Rc<str>, u32>,
    types: Vec<Vec<Rc<str>>>,
    names: HashMap<Rc<str>, u32>,
}

impl Task {
    fn fits(&self, object: usize, types: &[Rc<str>]) -> bool {
        self.types[object].iter().any(|own| {
            let mut at = own;
            loop {
                if types.contains(at) || types.iter().any(|name| &**name == "object") {
                    return true;
                }
                match self.parents.get(at) {
                    Some(parent) if parent != at => at = parent,
                    _ => return false,
                }
            }
        })
    }

    fn range(&self, types: &[Rc<str>]) -> Vec<u32> {
        (0..self.types.len()).filter(|object| self.fits(*object, types)).map(|object| object as u32).collect()
    }

    fn term(&self, tree: &Tree, scope: &[Rc<str>]) -> Term {
        let word = tree.word();
        match scope.iter().rposition(|name| name == word) {
            Some(place) => Term::Place(place),
            None => Term::Object(self.objects[word]),
        }
    }

    fn pattern(&self, items: &[Tree], scope: &[Rc<str>]) -> Pattern {
        let terms = items[1..].iter().map(|item| self.term(item, scope)).collect();
        Pattern { predicate: self.names[items[0].word()], terms }
    }

    fn bound(&self, variables: &Tree, scope: &mut Vec<Rc<str>>) -> Vec<Vec<u32>> {
        typed(variables.items()).into_iter().map(|(name, types)| {
            scope.push(name);
            self.range(&types)
        }).collect()
    }

    fn formula(&self, tree: &Tree, scope: &mut Vec<Rc<str>>) -> Formula {
        let items = tree.items();
        let all = |task: &Task, scope: &mut Vec<Rc<str>>| items[1..].iter().map(|item| task.formula(item, scope)).collect();
        match tree.head() {
            "" => Formula::And(Vec::new()),
            "and" => Formula::And(all(self, scope)),
            "or" => Formula::Or(all(self, scope)),
            "not" => Formula::Not(Box::new(self.formula(&items[1], scope))),
            "imply" => Formula::Imply(Box::new(self.formula(&items[1], scope)), Box::new(self.formula(&items[2], scope))),
            "=" => Formula::Equal(self.term(&items[1], scope), self.term(&items[2], scope)),
            head @ ("forall" | "exists") => {
                let outer = scope.len();
                let ranges = self.bound(&items[1], scope);
                let body = self.formula(&items[2], scope);
                scope.truncate(outer);
                Formula::Quantified(head == "forall", ranges, Box::new(body))
            }
            _ => Formula::Atom(self.pattern(items, scope)),
        }
    }

    fn effect(&self, tree: &Tree, scope: &mut Vec<Rc<str>>) -> Effect {
        let items = tree.items();
        match tree.head() {
            "" => Effect::And(Vec::new()),
            "and" => Effect::And(items[1..].iter().map(|item| self.effect(item, scope)).collect()),
            "not" => Effect::Delete(self.pattern(items[1].items(), scope)),
            "when" => Effect::When(self.formula(&items[1], scope), Box::new(self.effect(&items[2], scope))),
            "forall" => {
                let outer = scope.len();
                let ranges = self.bound(&items[1], scope);
                let body = self.effect(&items[2], scope);
                scope.truncate(outer);
                Effect::Forall(ranges, Box::new(body))
            }
            "increase" => match &items[2] {
                Tree::Word(amount) if amount.as_bytes()[0].is_ascii_digit() => Effect::Cost(whole(amount)),
                Tree::Word(_) => Effect::CostOf(self.pattern(&items[2..3], scope)),
                Tree::List(items) => Effect::CostOf(self.pattern(items, scope)),
            },
            _ => Effect::Add(self.pattern(items, scope)),
        }
    }
}

fn whole(number: &str) -> u64 {
    number.split('.').next().and_then(|digits| digits.parse().ok()).expect("a number")
}

// ---- states

type Atom = Vec<u32>;

/// The atoms that were met, each with its number.
#[derive(Default)]
struct Table(HashMap<Atom, u32>);

impl Table {
    fn number(&mut self, atom: &Atom) -> u32 {
        match self.0.get(atom) {
            Some(number) => *number,
            None => {
                let number = self.0.len() as u32;
                self.0.insert(atom.clone(), number);
                number
            }
        }
    }
}

struct World {
    table: Table,
    state: Vec<bool>,
    costs: HashMap<Atom, u64>,
    atom: Atom,
}

impl World {
    fn fill(&mut self, pattern: &Pattern, frame: &[u32]) {
        self.atom.clear();
        self.atom.push(pattern.predicate);
        self.atom.extend(pattern.terms.iter().map(|term| value(term, frame)));
    }

    fn holds(&mut self, formula: &Formula, frame: &mut Vec<u32>) -> bool {
        match formula {
            Formula::Atom(pattern) => {
                self.fill(pattern, frame);
                self.table.0.get(&self.atom).is_some_and(|number| self.state.get(*number as usize) == Some(&true))
            }
            Formula::Equal(one, other) => value(one, frame) == value(other, frame),
            Formula::Not(part) => !self.holds(part, frame),
            Formula::And(parts) => parts.iter().all(|part| self.holds(part, frame)),
            Formula::Or(parts) => parts.iter().any(|part| self.holds(part, frame)),
            Formula::Imply(first, second) => !self.holds(first, frame) || self.holds(second, frame),
            Formula::Quantified(is_all, ranges, body) => {
                let found = each(ranges, frame, &mut |frame| self.holds(body, frame) != *is_all);
                found != *is_all
            }
        }
    }

    fn reads(&mut self, formula: &Formula, frame: &mut Vec<u32>, set: &mut Vec<u32>) {
        match formula {
            Formula::Atom(pattern) => {
                self.fill(pattern, frame);
                set.push(self.table.number(&self.atom));
            }
            Formula::Equal(..) => {}
            Formula::Not(part) => self.reads(part, frame, set),
            Formula::And(parts) | Formula::Or(parts) => parts.iter().for_each(|part| self.reads(part, frame, set)),
            Formula::Imply(first, second) => {
                self.reads(first, frame, set);
                self.reads(second, frame, set);
            }
            Formula::Quantified(_, ranges, body) => {
                each(ranges, frame, &mut |frame| {
                    self.reads(body, frame, set);
                    false
                });
            }
        }
    }

    fn fire(&mut self, effect: &Effect, frame: &mut Vec<u32>, all_reads: bool, step: &mut Touched) {
        match effect {
            Effect::And(parts) => parts.iter().for_each(|part| self.fire(part, frame, all_reads, step)),
            Effect::Forall(ranges, body) => {
                each(ranges, frame, &mut |frame| {
                    self.fire(body, frame, all_reads, step);
                    false
                });
            }
            Effect::When(condition, body) => {
                if all_reads {
                    self.reads(condition, frame, &mut step.reads);
                    self.condition_reads(body, frame, step);
                }
                if self.holds(condition, frame) {
                    self.fire(body, frame, false, step);
                }
            }
            Effect::Add(pattern) => {
                self.fill(pattern, frame);
                step.adds.push(self.table.number(&self.atom));
            }
            Effect::Delete(pattern) => {
                self.fill(pattern, frame);
                step.deletes.push(self.table.number(&self.atom));
            }
            Effect::Cost(amount) => step.cost += u128::from(*amount),
            Effect::CostOf(pattern) => {
                self.fill(pattern, frame);
                step.cost += u128::from(self.costs[&self.atom]);
            }
        }
    }

    fn condition_reads(&mut self, effect: &Effect, frame: &mut Vec<u32>, step: &mut Touched) {
        match effect {
            Effect::And(parts) => parts.iter().for_each(|part| self.condition_reads(part, frame, step)),
            Effect::Forall(ranges, body) => {
                each(ranges, frame, &mut |frame| {
                    self.condition_reads(body, frame, step);
                    false
                });
            }
            Effect::When(condition, body) => {
                self.reads(condition, frame, &mut step.reads);
                self.condition_reads(body, frame, step);
            }
            _ => {}
        }
    }
}

#[derive(Default)]
struct Touched {
    reads: Vec<u32>,
    adds: Vec<u32>,
    deletes: Vec<u32>,
    cost: u128,
}

fn value(term: &Term, frame: &[u32]) -> u32 {
    match term {
        Term::Object(object) => *object,
        Term::Place(place) => frame[*place],
    }
}

/// Whether `test` says so of some valuation of the variables.
fn each(ranges: &[Vec<u32>], frame: &mut Vec<u32>, test: &mut dyn FnMut(&mut Vec<u32>) -> bool) -> bool {
    let Some((range, rest)) = ranges.split_first() else {
        return test(frame);
    };
    for object in range {
        frame.push(*object);
        let found = each(rest, frame, test);
        frame.pop();
        if found {
            return true;
        }
    }
    false
}

// ---- the verdict

fn section<'t>(file: &'t [Tree], keyword: &str) -> &'t [Tree] {
    file.iter().find(|section| section.head() == keyword).map_or(&[], |section| &section.items()[1..])
}

fn main() {
    let texts: Vec<String> = std::env::args().skip(1).map(|path| std::fs::read_to_string(path).expect("a file")).collect();
    let (domain, problem) = (trees(&texts[0]), trees(&texts[1]));
    let (domain, problem) = (&domain[0].items()[2..], &problem[0].items()[2..]);
    let mut task = Task::default();
    for (name, types) in typed(section(domain, ":types")) {
        task.parents.insert(name, types[0].clone());
    }
    for (name, types) in typed(section(domain, ":constants")).into_iter().chain(typed(section(problem, ":objects"))) {
        task.objects.insert(name, task.types.len() as u32);
        task.types.push(types);
    }
    for declared in section(domain, ":predicates").iter().chain(section(domain, ":functions")) {
        if let Tree::List(items) = declared {
            let number = task.names.len() as u32;
            task.names.insert(items[0].word().clone(), number);
        }
    }
    let mut actions = HashMap::new();
    for action in domain.iter().filter(|section| section.head() == ":action") {
        let items = action.items();
        let nothing = Tree::List(Vec::new());
        let field = |keyword: &str| items.iter().position(|item| item.head() == keyword).map_or(&nothing, |place| &items[place + 1]);
        let mut scope = typed(field(":parameters").items()).into_iter().map(|(name, _)| name).collect();
        let precondition = task.formula(field(":precondition"), &mut scope);
        let effect = task.effect(field(":effect"), &mut scope);
        actions.insert(items[1].word().clone(), Action { precondition, effect });
    }
    let mut world = World { table: Table::default(), state: Vec::new(), costs: HashMap::new(), atom: Vec::new() };
    let mut start = Vec::new();
    for item in section(problem, ":init") {
        let ground = |items: &[Tree]| -> Atom {
            std::iter::once(task.names[items[0].word()]).chain(items[1..].iter().map(|name| task.objects[name.word()])).collect()
        };
        match item.head() {
            "not" => {}
            "=" => {
                if let Tree::List(call) = &item.items()[1] {
                    world.costs.insert(ground(call), whole(item.items()[2].word()));
                }
            }
            _ => start.push(world.table.number(&ground(item.items()))),
        }
    }
    world.state.resize(world.table.0.len(), false);
    start.iter().for_each(|number| world.state[*number as usize] = true);
    let goal = task.formula(&section(problem, ":goal")[0], &mut Vec::new());

    // each line has one step here
    let mut happenings: BTreeMap<u64, Vec<(u32, &Action, Vec<u32>)>> = BTreeMap::new();
    let mut count = 0;
    for line in texts[2].lines() {
        let line = line.split(';').next().unwrap_or("");
        let Some(open) = line.find('(') else { continue };
        let names = line[open + 1..line.find(')').expect("a closing")].to_ascii_lowercase();
        let mut names = names.split_whitespace();
        let action = &actions[names.next().expect("a name")];
        let frame = names.map(|name| task.objects[name]).collect();
        let moment = line[..open].trim().trim_end_matches(':');
        let key = if moment.is_empty() {
            u64::from(count)
        } else {
            let (units, decimals) = moment.split_once('.').unwrap_or((moment, ""));
            units.parse::<u64>().expect("a moment") * 1_000_000_000 + format!("{decimals:0<9}").parse::<u64>().expect("decimals")
        };
        happenings.entry(key).or_default().push((count, action, frame));
        count += 1;
    }

    let mut cost = 0;
    for (h, steps) in happenings.values_mut().enumerate() {
        for (number, action, frame) in steps.iter_mut() {
            if !world.holds(&action.precondition, frame) {
                println!("invalid: happening {}, step {}: precondition is false", h + 1, *number + 1);
                return;
            }
        }
        let is_alone = steps.len() == 1;
        let (mut adds, mut deletes) = (Vec::new(), Vec::new());
        let (mut read, mut added, mut deleted) = (HashSet::new(), HashSet::new(), HashSet::new());
        for (number, action, frame) in steps.iter_mut() {
            let mut step = Touched::default();
            if !is_alone {
                world.reads(&action.precondition, frame, &mut step.reads);
            }
            world.fire(&action.effect, frame, !is_alone, &mut step);
            if !is_alone {
                let clashes = step.adds.iter().any(|atom| read.contains(atom) || deleted.contains(atom))
                    || step.deletes.iter().any(|atom| read.contains(atom) || added.contains(atom))
                    || step.reads.iter().any(|atom| added.contains(atom) || deleted.contains(atom));
                if clashes {
                    println!("invalid: happening {}, step {} interferes with one before it", h + 1, *number + 1);
                    return;
                }
                read.extend(step.reads);
                added.extend(step.adds.iter().copied());
                deleted.extend(step.deletes.iter().copied());
            }
            adds.append(&mut step.adds);
            deletes.append(&mut step.deletes);
            cost += step.cost;
        }
        world.state.resize(world.table.0.len(), false);
        deletes.iter().for_each(|atom| world.state[*atom as usize] = false);
        adds.iter().for_each(|atom| world.state[*atom as usize] = true);
    }
    if world.holds(&goal, &mut Vec::new()) {
        println!("valid: {count} steps in {} happenings, total-cost {cost}", happenings.len());
    } else {
        println!("invalid: goal is false");
    }
}
