//! One layer alone, done with the original's own code: the program that `bench/scan_speed`, `load_speed`, `dump_speed` and
//! `print_speed` measure ours against. It reads a stream of documents, each begun by a line `---`:
//!
//! - `scan`: the tokens of each document, up to the one that is refused.
//! - `load`: the documents of the stream, by one call of the loader.
//! - `N`: the values that the loader makes of the stream, each dumped N times into a text of its own.
//! - `print N`: the trees of the documents, each printed N times.
include!("crate_root.rs");

use content::yaml::vendored::{emitter::YamlEmitter, scanner::Scanner, yaml::YamlLoader};
use content::{yaml, Content};
use std::io::Read;
use std::path::Path;

/// The documents of a stream, each with its first line.
fn documents(input: &str) -> Vec<&str> {
    let (mut starts, mut at) = (Vec::new(), 0);
    for line in input.split_inclusive('\n') {
        if line.trim_end() == "---" {
            starts.push(at);
        }
        at += line.len();
    }
    starts.push(input.len());
    starts.windows(2).map(|ends| &input[ends[0]..ends[1]]).collect()
}

fn scan(input: &str) -> String {
    let mut tokens = 0u64;
    for document in documents(input) {
        tokens += Scanner::new(document.chars()).count() as u64;
    }
    format!("tokens {tokens}")
}

fn load(input: &str) -> String {
    match YamlLoader::load_from_str(input) {
        Ok(documents) => format!("documents {}", documents.len()),
        Err(_) => "no documents".to_string(),
    }
}

fn dump(input: &str, rounds: u32) -> String {
    let values = YamlLoader::load_from_str(input).expect("documents");
    let mut bytes = 0;
    for _ in 0..rounds {
        bytes = 0;
        for value in &values {
            let mut text = String::new();
            YamlEmitter::new(&mut text).dump(value).expect("a dump");
            bytes += text.len();
        }
    }
    format!("values {} bytes {bytes}", values.len())
}

fn print(input: &str, rounds: u32) -> String {
    let tree = |document: &&str| yaml::parse_str(document, Path::new("")).expect("a tree");
    let trees: Vec<Content> = documents(input).iter().map(tree).collect();
    let mut bytes = 0;
    for _ in 0..rounds {
        bytes = trees.iter().map(|tree| yaml::to_string(tree).len()).sum();
    }
    format!("trees {} bytes {bytes}", trees.len())
}

fn main() {
    let words: Vec<String> = std::env::args().skip(1).collect();
    let mut input = String::new();
    std::io::stdin().read_to_string(&mut input).expect("a text");
    let rounds = |at: usize| words.get(at).and_then(|word| word.parse().ok());
    let told = match words.first().map(String::as_str) {
        Some("scan") => scan(&input),
        Some("load") => load(&input),
        Some("print") => print(&input, rounds(1).expect("rounds")),
        _ => dump(&input, rounds(0).expect("rounds")),
    };
    println!("{told}");
}
