//! The files that are given: read, and the forms of several joined.

use std::ffi::OsStr;
use std::io::{self, Read};
use std::os::unix::ffi::OsStrExt;

use crate::notation;
use crate::shown::{quoted, shown};
use crate::source::{Fault, Spot};
use crate::written::{What, Written};

/// What a file has; of several files their forms joined, in order.
pub fn written(files: &[&OsStr]) -> Result<Written, String> {
    if files.iter().filter(|file| **file == "-").count() > 1 {
        return Err("silverpoise: standard input can be only one of the forms".to_string());
    }
    let all = files.iter().map(|file| File::read(file)).collect::<Result<Vec<File>, String>>()?;
    for (k, file) in all.iter().enumerate().filter(|_| all.len() > 1) {
        file.can_follow(&all[..k])?;
    }
    let mut all = all.into_iter();
    let first = all.next().expect("a form is given").written;
    all.try_fold(first, |before, file| before.join(file.written).map_err(|why| format!("silverpoise: {}: {why}", file.name)))
}

struct File {
    name: String,
    text: String,
    written: Written,
}

impl File {
    fn read(file: &OsStr) -> Result<File, String> {
        let mut bytes = Vec::new();
        let (name, got) = match file == "-" {
            true => ("<stdin>".to_string(), io::stdin().read_to_end(&mut bytes)),
            false => (shown(file.as_bytes()), std::fs::File::open(file).and_then(|mut open| open.read_to_end(&mut bytes))),
        };
        got.map_err(|error| format!("silverpoise: {name}: {error}"))?;
        let parsed = match std::str::from_utf8(&bytes) {
            Ok(text) => notation::parse(text),
            Err(error) => Err(not_utf8(&bytes[..error.valid_up_to()])),
        };
        let text = String::from_utf8_lossy(&bytes).into_owned();
        match parsed {
            Ok(written) => Ok(File { name, text, written }),
            Err(fault) => Err(fault.shown(&name, &text)),
        }
    }

    /// Whether its form can be joined to those of these files: in the whole, too, no two fields have the same name.
    fn can_follow(&self, before: &[File]) -> Result<(), String> {
        if let What::Commands(_) = self.written.what {
            return Err(format!("silverpoise: {}: it has commands, and only forms can be joined", self.name));
        }
        for field in &self.written.fields[0] {
            let has = |file: &&File| file.written.fields[0].iter().any(|other| other.name == field.name);
            if let Some(file) = before.iter().find(has) {
                let words = format!("a field of {} is called {} too", file.name, quoted(field.name.as_bytes()));
                return Err(Fault::new(field.spot, words).shown(&self.name, &self.text));
            }
        }
        Ok(())
    }
}

/// A stray byte behind these.
fn not_utf8(before: &[u8]) -> Fault {
    let before = String::from_utf8_lossy(before);
    let line = before.rsplit('\n').next().unwrap_or_default();
    let spot = Spot { line: 1 + before.matches('\n').count(), column: 1 + line.chars().count() };
    Fault::new(spot, "this byte is not UTF-8; in quotes it can be written as in `\"\\xff\"`")
}
