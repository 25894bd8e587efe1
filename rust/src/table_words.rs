//! Why a command table was refused, in words. The proved check decides; what is here only finds the words.

use crate::form_error::FormError;
use crate::layout::{area_length, AREA, NAMES};
use crate::node::{NameRecord, LONG, SHORT};
use crate::shown::quoted;
use crate::table_layout::{EntryLayout, TableLayout, COMMANDS};

/// Refusal 11 of commands and names that do not fit into a table.
pub(crate) fn within_limits(commands: &[Vec<NameRecord>]) -> Result<(), FormError> {
    count_fits(commands.len())?;
    for (number, names) in commands.iter().enumerate() {
        counts_fit(names.len(), area_length(names)).map_err(|why| of_entry(number, why))?;
    }
    Ok(())
}

fn count_fits(commands: usize) -> Result<(), FormError> {
    match (1..=COMMANDS).contains(&commands) {
        true => Ok(()),
        false => Err(at_fault(format!("the table has {commands} commands, and 1 to {COMMANDS} are allowed"))),
    }
}

fn counts_fit(names: usize, area: usize) -> Result<(), String> {
    match (names <= NAMES, area <= AREA) {
        (false, _) => Err(format!("it has {names} names, and at most {NAMES} are allowed")),
        (_, false) => Err(format!("its names have {area} bytes, and at most {AREA} are allowed")),
        _ => Ok(()),
    }
}

fn at_fault(reason: String) -> FormError {
    FormError::new(11, None, None, reason)
}

/// The names of the entry are what is at fault, so it is called by its number.
fn of_entry(number: usize, reason: String) -> FormError {
    at_fault(reason).of_command(number, format!("command {number}"))
}

/// Why the check refused these bytes with 11.
pub(crate) fn why(bytes: &[u8]) -> FormError {
    let table = TableLayout::of(bytes);
    let Some(commands) = table.commands() else {
        return at_fault(format!("the table has {} bytes, and its count alone needs 2", bytes.len()));
    };
    if let Err(error) = count_fits(commands) {
        return error;
    }
    let entries: Option<Vec<EntryLayout>> = (0..commands).map(|number| table.entry(number)).collect();
    let Some(entries) = entries else {
        return at_fault("the table's offsets are not there, or do not fit its bytes".to_string());
    };
    let first = entries.iter().enumerate().find_map(|(number, entry)| Some(of_entry(number, why_entry(*entry).err()?)));
    first.unwrap_or_else(|| at_fault("the table is refused".to_string()))
}

fn why_entry(entry: EntryLayout) -> Result<(), String> {
    let too_short = || format!("its entry has {} bytes, too few for its names", entry.length());
    let (names, area) = entry.counts().ok_or_else(too_short)?;
    counts_fit(names, area)?;
    if 4 + 6 * names + area > entry.length() {
        return Err(too_short());
    }
    (0..names).try_for_each(|record| why_name(record, entry.name(record)))?;
    match entry.first_long() {
        Some(_) => Ok(()),
        None => Err("it has no long name".to_string()),
    }
}

fn why_name(record: usize, name: Option<(u16, &[u8])>) -> Result<(), String> {
    let utf8 = |name: &[u8]| std::str::from_utf8(name).map(|text| text.chars().count()).ok();
    match name {
        None => Err(format!("the part of its name record {record} is outside the area")),
        Some((SHORT, name)) if utf8(name) != Some(1) => {
            Err(format!("its short name {} is not one UTF-8 character", quoted(name)))
        }
        Some((LONG, name)) if utf8(name).is_none() => Err(format!("its long name {} is not UTF-8", quoted(name))),
        Some((SHORT | LONG, _)) => Ok(()),
        Some((ty, _)) => Err(format!("its name record {record} has the type {ty}, and a command's names are of type 0 or 1")),
    }
}
