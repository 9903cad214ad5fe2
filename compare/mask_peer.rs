//! The job of `snap-mask`, done with the original's own code: the program that ours is measured against, side by side in one run.
//! Each line of standard input is read by `content::yaml::parse_str`, its value redacted by each rule in turn, and written by
//! `json::to_string`, before the next line is read. It knows `--put SELECTOR TEXT` and `--sort SELECTOR`, selectors of one part of
//! keys, `[n]`, `[]`, `.*` and `.**`, and checks nothing else.
include!("crate_root.rs");

use content::{json, yaml, Content};
use redaction::{Redaction, Segment, Selector};
use std::io::{BufRead, Write};
use std::path::Path;

/// The segment that a text begins with, and the text after it. The original reads selectors by a generated parser, which a program
/// without its grammar has not.
fn segment(text: &str) -> (Segment<'static>, &str) {
    if let Some(rest) = text.strip_prefix(".**") {
        return (Segment::DeepWildcard, rest);
    }
    if let Some(rest) = text.strip_prefix(".*").or_else(|| text.strip_prefix("[]")) {
        return (Segment::Wildcard, rest);
    }
    if let Some(rest) = text.strip_prefix('[') {
        let (index, rest) = rest.split_once(']').expect("a bracket without its end");
        return (Segment::Index(index.parse().expect("an index")), rest);
    }
    let rest = text.strip_prefix('.').expect("a segment without its dot");
    let (key, rest) = rest.split_at(rest.find(['.', '[']).unwrap_or(rest.len()));
    (Segment::Key(key.to_string().into()), rest)
}

fn selector(text: &str) -> Selector<'static> {
    let (mut segments, mut rest) = (Vec::new(), text);
    while !rest.is_empty() {
        let (first, more) = segment(rest);
        segments.push(first);
        rest = more;
    }
    redaction::oracle_access::selector(vec![segments])
}

/// The rules that the words spell.
fn rules(mut words: impl Iterator<Item = String>) -> Vec<(Selector<'static>, Redaction)> {
    let mut rules = Vec::new();
    while let Some(option) = words.next() {
        let at = selector(&words.next().expect("a selector"));
        rules.push(match option.as_str() {
            "--put" => (at, Redaction::Static(Content::String(words.next().expect("a text")))),
            _ => (at, redaction::sorted_redaction()),
        });
    }
    rules
}

fn main() {
    let rules = rules(std::env::args().skip(1));
    let mut input = std::io::stdin().lock();
    let mut out = std::io::stdout().lock();
    let mut line = String::new();
    while input.read_line(&mut line).expect("a text") > 0 {
        let text = line.strip_suffix('\n').unwrap_or(&line);
        let text = text.strip_suffix('\r').unwrap_or(text);
        if !text.is_empty() {
            let mut value = yaml::parse_str(text, Path::new("")).expect("JSON");
            for (selector, redaction) in &rules {
                value = selector.redact(value, redaction);
            }
            let mut record = json::to_string(&value);
            record.push('\n');
            out.write_all(record.as_bytes()).and_then(|()| out.flush()).expect("a reader of the records");
        }
        line.clear();
    }
}
