//! Has `rt` prove what some libraries rest on, several crates at a time, and build them.
//!
//! `rt lib` alone goes from crate to crate. `rt all check --jobs N` begins a crate as soon as all that it names is proved, up to N side
//! by side; tools/libraries runs it before `rt lib`, over what earlier builds left. This module says how many, and names the sources.

use std::{
    collections::{BTreeMap, BTreeSet},
    env, fs,
    path::{Path, PathBuf},
    process::{Command, Stdio},
};

/// What each crate of the project names of the project, by crates.txt.
type Crates = BTreeMap<String, Vec<String>>;

/// What one check takes of memory, with something to spare, in kB.
const CHECK: usize = 2_500_000;

/// Proves and builds the libraries that are missing or older than a source, in target/staticlib.
pub fn side_by_side(root: &Path, names: &[&str]) {
    if let Err(error) = Command::new("rt").arg("version").stdout(Stdio::null()).status() {
        panic!("`rt` cannot be run ({error}): set SILVERPOISE_LIB to the folder of the libraries");
    }
    let mut libraries = Command::new(root.join("tools/libraries"));
    match libraries.args(names).env("RT_JOBS", jobs().to_string()).current_dir(root).status() {
        Ok(status) => assert!(status.success(), "`tools/libraries {}` failed", names.join(" ")),
        Err(error) => panic!("tools/libraries cannot be run: {error}"),
    }
}

/// How many crates are proved at a time, where the caller does not say it: as many as there are processors and memory.
fn jobs() -> usize {
    let said = env::var("RT_JOBS").ok().and_then(|n| n.parse().ok());
    let processors = || std::thread::available_parallelism().map_or(1, |n| n.get());
    said.unwrap_or_else(|| processors().min(8).min(free().map_or(8, |kb| kb / CHECK))).max(1)
}

/// The memory that is free, in kB, where the system says it.
fn free() -> Option<usize> {
    let text = fs::read_to_string("/proc/meminfo").ok()?;
    let line = text.lines().find_map(|line| line.strip_prefix("MemAvailable:"))?;
    line.split_whitespace().next()?.parse().ok()
}

/// What the libraries are made from: crates.txt, and the folders of each crate that they rest on.
pub fn sources(root: &Path, names: &[&str]) -> Vec<PathBuf> {
    let list = root.join("crates.txt");
    let crates = read(&fs::read_to_string(&list).unwrap_or_default());
    let folder = |name: &str, part: &str| root.join("crates").join(name).join(part);
    let all = beneath(&crates, names);
    let folders = all.iter().flat_map(|name| ["src", "specs", "proofs"].map(|part| folder(name, part)));
    folders.filter(|path| path.is_dir()).chain([list]).collect()
}

fn read(text: &str) -> Crates {
    let lines = text.lines().map(|line| line.split('#').next().unwrap_or(""));
    let pairs: Vec<(&str, &str)> = lines.filter_map(|line| line.split_once(':')).collect();
    // a word behind the name may say what the crate is, as `exports staticlib: ..`
    let name = |head: &str| head.split_whitespace().next().unwrap_or("").to_string();
    let listed: BTreeSet<String> = pairs.iter().map(|(head, _)| name(head)).collect();
    let ours = |words: &str| words.split_whitespace().filter(|d| listed.contains(*d)).map(String::from).collect();
    pairs.iter().map(|(head, words)| (name(head), ours(words))).collect()
}

/// Some crates, and all that they rest on.
fn beneath(crates: &Crates, names: &[&str]) -> BTreeSet<String> {
    let mut found: BTreeSet<String> = names.iter().map(|name| name.to_string()).collect();
    let mut open = names.to_vec();
    while let Some(next) = open.pop() {
        for d in crates.get(next).into_iter().flatten() {
            if found.insert(d.clone()) {
                open.push(d);
            }
        }
    }
    found
}
