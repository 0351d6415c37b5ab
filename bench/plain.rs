//! The same work as `format` in plain Rust, for comparison: plans in one buffer, words and lists with names of their own, canonical text.
//! It accepts files without looking for every fault, and proves nothing.
//!
//! Build: rustc --edition 2021 -O plain.rs. Usage: plain domain|problem|plan FILE.

use std::io::Write;

// ---- words

enum Word<'a> {
    Open,
    Close,
    Colon,
    Number(&'a [u8]),
    /// A name, a variable, a keyword, `-` or `=`.
    Text(&'a [u8]),
}

fn run_length(text: &[u8], test: impl Fn(u8) -> bool) -> usize {
    text.iter().position(|byte| !test(*byte)).unwrap_or(text.len())
}

fn is_word_byte(byte: u8) -> bool {
    byte.is_ascii_alphanumeric() || byte == b'-' || byte == b'_'
}

/// The word that stands first, if one does and no blank or comment, and the length of what stands there.
fn first_word(rest: &[u8]) -> (Option<Word<'_>>, usize) {
    let is_marked = rest.get(1).is_some_and(u8::is_ascii_alphabetic);
    match rest[0] {
        b' ' | b'\t' | b'\n' | b'\r' | 12 => (None, 1),
        b';' => (None, run_length(rest, |byte| byte != b'\n')),
        b'(' => (Some(Word::Open), 1),
        b')' => (Some(Word::Close), 1),
        b'-' | b'=' => (Some(Word::Text(&rest[..1])), 1),
        b':' if !is_marked => (Some(Word::Colon), 1),
        b'0'..=b'9' => {
            let length = run_length(rest, |byte| byte.is_ascii_digit() || byte == b'.');
            (Some(Word::Number(&rest[..length])), length)
        }
        byte if byte.is_ascii_alphabetic() || is_marked && matches!(byte, b':' | b'?') => {
            let length = 1 + run_length(&rest[1..], is_word_byte);
            (Some(Word::Text(&rest[..length])), length)
        }
        byte => panic!("no word begins with {byte}"),
    }
}

fn each_word<'a>(text: &'a [u8], mut take: impl FnMut(Word<'a>)) {
    let mut at = 0;
    while at < text.len() {
        let (word, length) = first_word(&text[at..]);
        if let Some(word) = word {
            take(word);
        }
        at += length;
    }
}

fn words(text: &[u8]) -> Vec<Word<'_>> {
    let mut words = Vec::new();
    each_word(text, |word| words.push(word));
    words
}

// ---- numbers

fn billionths(number: &[u8]) -> u64 {
    let mut parts = number.splitn(2, |byte| *byte == b'.');
    let whole = parts.next().unwrap_or_default();
    let decimals = parts.next().unwrap_or_default();
    let places = (0..9).map(|place| decimals.get(place).copied().unwrap_or(b'0'));
    whole.iter().copied().chain(places).fold(0, |value, digit| value * 10 + u64::from(digit - b'0'))
}

fn put_number(text: &mut Vec<u8>, value: u64) {
    let decimals = format!("{:09}", value % 1_000_000_000);
    let decimals = decimals.trim_end_matches('0');
    let point = if decimals.is_empty() { "" } else { "." };
    text.extend_from_slice(format!("{}{point}{decimals}", value / 1_000_000_000).as_bytes());
}

// ---- plans

/// The names of all steps side by side, where each name ends, and behind which name each step does.
#[derive(Default)]
struct Plan {
    names: Vec<u8>,
    ends: Vec<u32>,
    steps: Vec<u32>,
    moments: Vec<u64>,
}

fn plan(text: &[u8]) -> Plan {
    let mut plan = Plan::default();
    each_word(text, |word| match word {
        Word::Number(number) => plan.moments.push(billionths(number)),
        Word::Text(name) => {
            let start = plan.names.len();
            plan.names.extend_from_slice(name);
            plan.names[start..].make_ascii_lowercase();
            plan.ends.push(plan.names.len() as u32);
        }
        Word::Close => plan.steps.push(plan.ends.len() as u32),
        Word::Open | Word::Colon => {}
    });
    plan
}

fn plan_text(plan: &Plan) -> Vec<u8> {
    let mut text = Vec::new();
    let mut first = 0;
    let mut start = 0;
    for (number, step) in plan.steps.iter().enumerate() {
        if let Some(moment) = plan.moments.get(number) {
            put_number(&mut text, *moment);
            text.extend_from_slice(b": ");
        }
        text.push(b'(');
        for (place, end) in plan.ends[first..*step as usize].iter().enumerate() {
            if place > 0 {
                text.push(b' ');
            }
            text.extend_from_slice(&plan.names[start..*end as usize]);
            start = *end as usize;
        }
        first = *step as usize;
        text.extend_from_slice(b")\n");
    }
    text
}

// ---- domains and problems

enum Tree {
    Number(u64),
    Text(Vec<u8>),
    List(Vec<Tree>),
}

impl Tree {
    fn items(&self) -> &[Tree] {
        match self {
            Tree::List(items) => items,
            _ => &[],
        }
    }

    fn is(&self, word: &[u8]) -> bool {
        matches!(self, Tree::Text(text) if text == word)
    }

    fn begins(&self, word: &[u8]) -> bool {
        self.items().first().is_some_and(|head| head.is(word))
    }
}

fn trees(words: &[Word]) -> Vec<Tree> {
    let mut open = vec![Vec::new()];
    for word in words {
        let tree = match word {
            Word::Open => {
                open.push(Vec::new());
                continue;
            }
            Word::Close => Tree::List(open.pop().expect("an opening")),
            Word::Number(number) => Tree::Number(billionths(number)),
            Word::Text(text) => Tree::Text(text.to_ascii_lowercase()),
            Word::Colon => panic!("a colon alone"),
        };
        open.last_mut().expect("an opening").push(tree);
    }
    open.pop().expect("items")
}

fn put_word(text: &mut Vec<u8>, word: &[u8]) {
    if !matches!(text.last(), Some(b' ' | b'(') | None) {
        text.push(b' ');
    }
    text.extend_from_slice(word);
}

/// Items with a type each, in place of a type behind each group of them.
fn put_typed(text: &mut Vec<u8>, items: &[Tree], type_name: &[u8], nested: fn(&mut Vec<u8>, &Tree)) {
    let default = Tree::Text(type_name.to_vec());
    let mut rest = items;
    while !rest.is_empty() {
        let count = rest.iter().position(|item| item.is(b"-")).unwrap_or(rest.len());
        for item in &rest[..count] {
            nested(text, item);
            put_word(text, b"-");
            put_type(text, rest.get(count + 1).unwrap_or(&default));
        }
        rest = rest.get(count + 2..).unwrap_or_default();
    }
}

fn put_type(text: &mut Vec<u8>, tree: &Tree) {
    match tree.items() {
        [_, one] => put_tree(text, one),
        _ => put_tree(text, tree),
    }
}

/// A formula, an effect, a term or an item of `:init`.
fn put_tree(text: &mut Vec<u8>, tree: &Tree) {
    match tree {
        Tree::Number(value) => {
            put_word(text, b"");
            put_number(text, *value);
        }
        Tree::Text(word) if word == b"total-cost" => put_word(text, b"(total-cost)"),
        Tree::Text(word) => put_word(text, word),
        Tree::List(items) => {
            put_word(text, b"(");
            match items.as_slice() {
                [] => text.extend_from_slice(b"and"),
                [head, variables, body] if head.is(b"forall") || head.is(b"exists") => {
                    put_tree(text, head);
                    put_word(text, b"(");
                    put_typed(text, variables.items(), b"object", put_tree);
                    text.push(b')');
                    put_tree(text, body);
                }
                [Tree::Text(head), rest @ ..] => {
                    put_word(text, head);
                    rest.iter().for_each(|item| put_tree(text, item));
                }
                _ => items.iter().for_each(|item| put_tree(text, item)),
            }
            text.push(b')');
        }
    }
}

/// A predicate or a function with its parameters.
fn put_signature(text: &mut Vec<u8>, tree: &Tree) {
    put_word(text, b"(");
    let (name, parameters) = tree.items().split_first().expect("a name");
    if let Tree::Text(name) = name {
        put_word(text, name);
    }
    put_typed(text, parameters, b"object", put_tree);
    text.push(b')');
}

/// A section by its keyword.
fn put_section(text: &mut Vec<u8>, keyword: &[u8], items: &[Tree]) {
    text.extend_from_slice(b"  (");
    text.extend_from_slice(keyword);
    match keyword {
        b":types" | b":constants" | b":objects" => put_typed(text, items, b"object", put_tree),
        b":predicates" => items.iter().for_each(|item| put_signature(text, item)),
        b":functions" => put_typed(text, items, b"number", put_signature),
        _ => items.iter().for_each(|item| put_tree(text, item)),
    }
    text.extend_from_slice(b")\n");
}

fn put_action(text: &mut Vec<u8>, items: &[Tree]) {
    text.extend_from_slice(b"  (:action");
    put_tree(text, &items[0]);
    let empty = Tree::List(Vec::new());
    for keyword in [b":parameters".as_slice(), b":precondition", b":effect"] {
        let place = items.iter().position(|item| item.is(keyword));
        let value = place.map_or(&empty, |place| &items[place + 1]);
        text.extend_from_slice(b"\n    ");
        text.extend_from_slice(keyword);
        if keyword == b":parameters" {
            put_word(text, b"(");
            put_typed(text, value.items(), b"object", put_tree);
            text.push(b')');
        } else {
            put_tree(text, value);
        }
    }
    text.extend_from_slice(b")\n");
}

const DOMAIN: [&[u8]; 5] = [b":requirements", b":types", b":constants", b":predicates", b":functions"];

const PROBLEM: [&[u8]; 6] = [b":domain", b":requirements", b":objects", b":init", b":goal", b":metric"];

fn file_text(words: &[Word], keywords: &[&[u8]]) -> Vec<u8> {
    let trees = trees(words);
    let [_, head, sections @ ..] = trees[0].items() else {
        panic!("no file");
    };
    let mut text = b"(define ".to_vec();
    put_tree(&mut text, head);
    text.push(b'\n');
    for keyword in keywords {
        let section = sections.iter().find(|section| section.begins(keyword));
        let items = section.map_or(&[][..], |section| &section.items()[1..]);
        if !items.is_empty() || keyword == b":init" {
            put_section(&mut text, keyword, items);
        }
    }
    for section in sections.iter().filter(|section| section.begins(b":action")) {
        put_action(&mut text, &section.items()[1..]);
    }
    text.extend_from_slice(b")\n");
    text
}

fn main() {
    let mut arguments = std::env::args().skip(1);
    let kind = arguments.next().expect("a kind");
    let path = arguments.next().expect("a file");
    let text = std::fs::read(path).expect("a file that opens");
    let printed = match kind.as_str() {
        "domain" => file_text(&words(&text), &DOMAIN),
        "problem" => file_text(&words(&text), &PROBLEM),
        _ => plan_text(&plan(&text)),
    };
    std::io::stdout().write_all(&printed).expect("a writer that takes it");
}
