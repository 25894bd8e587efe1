//! What the generated cases must have.

use std::collections::{BTreeMap, BTreeSet};

use super::forms::{written, CROSSED, LISTING};
use super::limits::{good_forms, limit_forms, limit_sheets, longest};
use super::*;
use crate::batches::{self, SHEETS};
use crate::commands::{Command, Table, ENTRIES};
use crate::idle;
use crate::looks::{at_marker, looks_like_options, Reading};
use crate::notation;

const CASES: usize = 20_000;

fn forms_and_sheets() -> impl Iterator<Item = (Form, Sheet)> {
    let mut rng = Rng::new(1);
    (0..CASES).map(move |_| {
        let case = well_made(&mut rng);
        (
            Form::check(&case.form).expect("an accepted form"),
            Sheet::check(&case.sheet).expect("a sheet"),
        )
    })
}

#[test]
fn well_made_cases_are_well_made() {
    assert_eq!(forms_and_sheets().count(), CASES);
    let mut rng = Rng::new(1);
    for _ in 0..CASES {
        let case = well_made(&mut rng);
        assert_eq!(split_joined(&case.joined()), (&case.form[..], &case.sheet[..]));
    }
}

/// A change of the generator changes this number; nothing else may.
#[test]
fn the_same_seed_gives_the_same_bytes() {
    let mut hash: u64 = 0xcbf2_9ce4_8422_2325;
    let (mut one, mut two) = (Rng::new(5), Rng::new(5));
    for k in 0..2_000 {
        let make = if k % 2 == 0 { well_made } else { damaged };
        let case = make(&mut one);
        assert_eq!(case, make(&mut two));
        for b in case.joined() {
            hash = (hash ^ u64::from(b)).wrapping_mul(0x100_0000_01b3);
        }
    }
    assert_eq!(hash, 0xcd40_ea3e_987c_d12a);
    assert_ne!(well_made(&mut Rng::new(5)), well_made(&mut Rng::new(6)));
}

/// The kinds that may stand beneath a kind.
fn legal(parent: u16) -> &'static [u16] {
    match parent {
        OPTIONAL => &[1, 2, 3, 5, 6, 7, 8, 9, 10, 11],
        MANY..=LAST => &[1, 2, 3, 4, 9, 10, 11],
        CHOICE => &[1, 2, 3, 4, 5, 6, 7, 8, 9, 10, 11],
        FALLBACK => &[1, 2, 3, 7, 8, 9, 10, 11],
        GUARD => &[2, 3, 7, 8, 9, 10, 11],
        _ => &[],
    }
}

#[test]
fn every_legal_pair_of_kinds_occurs() {
    let mut pairs: BTreeMap<(u16, u16), usize> = BTreeMap::new();
    for (form, _) in forms_and_sheets() {
        for node in &form.nodes {
            node.children()
                .for_each(|c| *pairs.entry((node.kind, form.nodes[c].kind)).or_default() += 1);
        }
    }
    let legal: Vec<(u16, u16)> = (1..=11).flat_map(|p| legal(p).iter().map(move |c| (p, *c))).collect();
    assert_eq!(pairs.keys().copied().collect::<Vec<_>>(), legal);
    println!(
        "{} pairs, the rarest {:?} times: {pairs:?}",
        legal.len(),
        pairs.values().min()
    );
}

#[test]
fn every_kind_and_its_numbers_occur() {
    let mut seen = BTreeSet::new();
    let (mut most, mut named, mut values) = ((0, 0, 0, 0), BTreeSet::new(), BTreeSet::new());
    for (form, _) in forms_and_sheets() {
        for node in &form.nodes {
            let p = if node.kind == POSITIONAL { node.p } else { 0 };
            seen.insert((node.kind, p, if node.kind <= SOME { node.r } else { 0 }));
            if node.kind <= ARGUMENT {
                named.insert(node.q);
            }
        }
        let kinds = form.kinds().unwrap();
        values.extend(form.fields.iter().map(|k| format!("{:?}", kinds[*k as usize])));
        let (n, f, m, a) = (form.nodes.len(), form.fields.len(), form.names.len(), form.area.len());
        most = (most.0.max(n), most.1.max(f), most.2.max(m), most.3.max(a));
    }
    let twos = [1, 4, 5, 6].iter().flat_map(|kind| [(*kind, 0, 0), (*kind, 0, 1)]);
    let arguments = (0..4).map(|r| (ARGUMENT, 0, r));
    let positionals = (0..3).flat_map(|p| [(POSITIONAL, p, 0), (POSITIONAL, p, 2)]);
    let others = (COUNT..=GUARD).map(|kind| (kind, 0, 0));
    assert_eq!(seen, twos.chain(arguments).chain(positionals).chain(others).collect());
    assert_eq!(most, (NODES, FIELDS, NAMES, FORM_AREA));
    assert_eq!(named, (1..=8).collect());
    assert_eq!(values.len(), 15);
}

/// What forms are to have in some cases.
fn form_traits(form: &Form) -> Vec<&'static str> {
    let (flags, arguments) = (form.letters(FLAG), form.letters(ARGUMENT));
    let names = || form.names.iter().enumerate();
    let empty = |ty| names().any(|(_, n)| n.ty == ty && n.length == 0);
    let multi = |ty| names().any(|(k, n)| n.ty == ty && form.name(k).iter().any(|b| *b > 127));
    let shared = |a: &Name, b: &Name| a.offset < b.offset + b.length && b.offset < a.offset + a.length;
    let overlap = names().any(|(k, a)| form.names[..k].iter().any(|b| shared(a, b)));
    let in_order = form
        .nodes
        .iter()
        .enumerate()
        .all(|(k, n)| n.kind < OPTIONAL || n.children().any(|c| c + 1 == k));
    let found = [
        (flags.iter().any(|c| arguments.contains(c)), "a letter that is both"),
        (flags.iter().any(|c| "=-".contains(*c)), "= or - as a flag"),
        (arguments.iter().any(|c| "=-".contains(*c)), "= or - as an argument"),
        (empty(LONG), "an empty long name"),
        (empty(TEXT), "an empty text"),
        (multi(SHORT), "a short name of several bytes"),
        (multi(LONG), "a long name of several bytes"),
        (overlap, "records that overlap"),
        (!in_order, "a node whose children are not just below"),
        (form.area.len() == FORM_AREA, "the largest area of a form"),
        (form.nodes.len() == NODES, "the most nodes"),
        (form.nodes.len() == 1, "one node"),
    ];
    found.iter().filter(|t| t.0).map(|t| t.1).collect()
}

/// What sheets are to have in some cases.
fn sheet_traits(sheet: &Sheet) -> Vec<&'static str> {
    let all = &sheet.arguments;
    let area: usize = all.iter().map(Vec::len).sum();
    let starts = |dashes: &[u8], a: &Vec<u8>| a.starts_with(dashes) && a.len() > dashes.len();
    let broken = |a: &Vec<u8>| std::str::from_utf8(a).is_err();
    let found = [
        (all.is_empty(), "no arguments"),
        (all.len() == ARGUMENTS, "the most arguments"),
        (area == SHEET_AREA, "the largest area"),
        (
            all.iter().any(|a| a.len() > 1000 && a.starts_with(b"-")),
            "a long cluster",
        ),
        (all.iter().any(|a| a == b"--"), "--"),
        (all.iter().any(|a| a == b"-"), "-"),
        (all.iter().any(|a| a.is_empty()), "an empty argument"),
        (all.iter().any(|a| a == b"---"), "---"),
        (all.iter().any(|a| a == b"--=7"), "--=7"),
        (all.iter().any(|a| a.starts_with(b"-=")), "-="),
        (
            all.iter().any(|a| starts(b"--", a) && a.ends_with(b"=")),
            "a long name with nothing behind =",
        ),
        (all.iter().any(|a| a.ends_with(b"4294967296")), "2^32"),
        (all.iter().any(|a| a.ends_with(b"4294967295")), "2^32 - 1"),
        (
            all.iter().any(|a| broken(a) && !a.starts_with(b"-")),
            "a value that is not UTF-8",
        ),
        (
            all.iter().any(|a| broken(a) && starts(b"--", a)),
            "a long name that is not UTF-8",
        ),
        (
            all.iter().any(|a| broken(a) && starts(b"-", a)),
            "letters that are not UTF-8",
        ),
    ];
    found.iter().filter(|t| t.0).map(|t| t.1).collect()
}

#[test]
fn every_trait_occurs() {
    let mut counts: BTreeMap<&str, usize> = BTreeMap::new();
    for (form, sheet) in forms_and_sheets() {
        form_traits(&form)
            .iter()
            .chain(&sheet_traits(&sheet))
            .for_each(|t| *counts.entry(t).or_default() += 1);
    }
    println!("{counts:?}");
    assert_eq!(counts.len(), 28);
}

#[test]
fn damaged_cases_are_refused_in_every_way() {
    let mut rng = Rng::new(1);
    let mut counts = [0; 7];
    let mut places = BTreeSet::new();
    for _ in 0..CASES {
        let case = damaged(&mut rng);
        let refusal = Form::check(&case.form)
            .map(drop)
            .and_then(|()| Sheet::check(&case.sheet).map(drop));
        let refusal = refusal.err().unwrap_or(Refusal::new(0));
        counts[refusal.number as usize] += 1;
        places.insert((refusal.number, refusal.place.is_some()));
    }
    println!("accepted, then refusals 1 to 6: {counts:?}");
    assert!(counts[1..].iter().all(|c| *c > CASES / 200), "{counts:?}");
    assert!(counts[0] < CASES / 4, "{counts:?}");
    assert!(places.contains(&(4, false)) && places.contains(&(4, true)));
}

#[test]
fn limits_are_where_they_are() {
    let refusal = |form: &Form| {
        Form::check(&form.write())
            .err()
            .map(|refusal| (refusal.number, refusal.place))
    };
    assert!(good_forms().iter().all(|form| refusal(form).is_none()));
    let kinds: BTreeSet<u16> = good_forms()[1].nodes.iter().map(|node| node.kind).collect();
    assert_eq!(kinds, (FLAG..=GUARD).collect());
    let found: Vec<_> = limit_forms().iter().map(refusal).collect();
    let (good, longer) = ([None; 5], [Some((1, None)); 5]);
    assert_eq!(found[..5], good);
    assert_eq!(found[5..10], longer);
    assert_eq!(found[10..], [Some((4, Some(0))), Some((3, Some(NODES - 1)))]);
    let sheets: Vec<_> = limit_sheets()
        .iter()
        .map(|s| Sheet::check(&s.write()).err().map(|r| r.number))
        .collect();
    assert_eq!(sheets[..5], [None; 5]);
    assert_eq!(sheets[5..], [Some(6), Some(6), Some(5), Some(6), None]);
}

#[test]
fn the_longest_input() {
    let cases = longest();
    assert_eq!(cases[0].joined().len(), FORM_LENGTH + SHEET_LENGTH);
    assert!(Form::check(&cases[0].form).is_ok() && Sheet::check(&cases[0].sheet).is_ok());
    assert_eq!(cases[2].joined().len(), BENCH_INPUT);
}

#[test]
fn limits_are_refused_in_every_way() {
    let cases = limits();
    let mut numbers = BTreeMap::new();
    for case in &cases {
        let refusal = Form::check(&case.form)
            .map(drop)
            .and_then(|()| Sheet::check(&case.sheet).map(drop));
        *numbers
            .entry(refusal.err().map_or(0, |refusal| refusal.number))
            .or_insert(0) += 1;
    }
    println!("{} cases: {numbers:?}", cases.len());
    assert_eq!(numbers.keys().copied().collect::<Vec<u32>>(), [0, 1, 2, 3, 4, 5, 6]);
    assert_eq!(cases, limits());
}

#[test]
fn wanting_cases_ask_for_much() {
    let mut rng = Rng::new(1);
    let (mut most, mut turned, mut dashes, mut kinds) = (0, 0, 0, BTreeSet::new());
    for _ in 0..CASES {
        let case = wanting(&mut rng);
        let form = Form::check(&case.form).expect("an accepted form");
        let sheet = Sheet::check(&case.sheet).expect("a sheet");
        most = most.max(form.leaves());
        turned += usize::from(form.nodes.iter().any(|n| n.kind == CHOICE && n.p > n.q));
        dashes += usize::from(sheet.arguments.iter().any(|a| a == b"--"));
        kinds.extend(form.nodes.iter().map(|n| (n.kind, if n.kind == POSITIONAL { n.p } else { 0 })));
    }
    assert_eq!(most, NODES / 2);
    assert!(turned > CASES / 4, "{turned}");
    assert!((CASES / 4..3 * CASES / 4).contains(&dashes), "{dashes}");
    let all: BTreeSet<(u16, u16)> = (FLAG..=GUARD).map(|k| (k, 0)).chain([(POSITIONAL, 1), (POSITIONAL, 2)]).collect();
    assert_eq!(kinds, all);
}

#[test]
fn contested_cases_have_many_fields() {
    let mut rng = Rng::new(1);
    let (mut fields, mut kinds, mut dashes) = (BTreeSet::new(), BTreeSet::new(), 0);
    for _ in 0..CASES {
        let case = contested(&mut rng);
        let form = Form::check(&case.form).expect("an accepted form");
        let sheet = Sheet::check(&case.sheet).expect("a sheet");
        fields.insert(form.fields.len());
        kinds.extend(form.nodes.iter().map(|n| n.kind));
        dashes += usize::from(sheet.arguments.iter().any(|a| a == b"--"));
    }
    assert_eq!(fields, (2..=FIELDS).collect());
    assert_eq!(kinds, (FLAG..=GUARD).filter(|k| *k != COUNT).collect());
    assert!((CASES / 10..CASES / 2).contains(&dashes), "{dashes}");
}

#[test]
fn left_over_cases_have_names_of_no_node_and_lack_positionals() {
    let mut rng = Rng::new(1);
    let (mut bare, mut spare, mut again, mut kinds) = (0, 0, 0, BTreeSet::new());
    for _ in 0..CASES {
        let case = left_over(&mut rng);
        let form = Form::check(&case.form).expect("an accepted form");
        let sheet = Sheet::check(&case.sheet).expect("a sheet");
        let named: usize = form.nodes.iter().filter(|n| n.kind <= ARGUMENT).map(|n| n.q as usize).sum();
        let untyped = form.names.iter().filter(|n| n.ty != TEXT).count();
        let different: BTreeSet<_> = sheet.arguments.iter().collect();
        bare += usize::from(form.nodes.iter().all(|n| n.kind != POSITIONAL));
        spare += usize::from(named < untyped);
        again += usize::from(different.len() < sheet.arguments.len());
        kinds.extend(form.nodes.iter().map(|n| (n.kind, if n.kind == POSITIONAL { n.p } else { 0 })));
    }
    assert!((CASES / 4..3 * CASES / 4).contains(&bare), "{bare}");
    assert!(spare > CASES / 8 && again > CASES / 8, "{spare} {again}");
    let none = [SOME, LAST];
    let all = (FLAG..=GUARD).filter(|k| !none.contains(k)).map(|k| (k, 0)).chain([(POSITIONAL, 1), (POSITIONAL, 2)]);
    assert_eq!(kinds, all.collect());
}

#[test]
fn dashed_cases_have_words_that_look_like_options() {
    let mut rng = Rng::new(1);
    let (mut letters, mut names, mut dashes, mut behind, mut kinds) = (0, 0, 0, 0, BTreeSet::new());
    for _ in 0..CASES {
        let case = dashed(&mut rng);
        let form = Form::check(&case.form).expect("an accepted form");
        let sheet = Sheet::check(&case.sheet).expect("a sheet");
        let misread = Reading::of(&form, &sheet.arguments).misread;
        let (before, after) = at_marker(&sheet.arguments);
        letters += usize::from(misread.iter().any(|m| m.letter.is_some()));
        names += usize::from(misread.iter().any(|m| m.letter.is_none()));
        dashes += usize::from(before.iter().any(|a| a == b"-"));
        behind += usize::from(after.iter().any(|a| a != b"--" && looks_like_options(a)));
        kinds.extend(form.nodes.iter().map(|n| (n.kind, if n.kind == POSITIONAL { n.p } else { 0 })));
    }
    for seen in [letters, names, dashes, behind] {
        assert!((CASES / 16..CASES / 2).contains(&seen), "{letters} {names} {dashes} {behind}");
    }
    let none = [CHOICE, FALLBACK, GUARD];
    let all = (FLAG..=GUARD).filter(|k| !none.contains(k)).map(|k| (k, 0)).chain([(POSITIONAL, 1), (POSITIONAL, 2)]);
    assert_eq!(kinds, all.collect());
}

#[test]
fn dashed_commands_have_command_words_that_look_like_options() {
    let mut rng = Rng::new(1);
    let (mut words, mut first, mut misread, mut known) = (0, 0, 0, 0);
    for _ in 0..CASES / 4 {
        let case = dashed_commands(&mut rng);
        let table = Table::check(&case.table).expect("a table");
        let sheet = Sheet::check(&case.sheet).expect("a sheet");
        let named = |c: &Command| c.tried().any(|name| sheet.arguments.first().is_some_and(|a| a == name.as_bytes()));
        let entry = table.commands.iter().position(named);
        let by_all = Reading::of_commands(&table, &sheet.arguments).misread;
        let alone = entry.map(|k| Reading::of(&table.forms[k], &sheet.arguments).misread).unwrap_or_default();
        words += usize::from(entry.is_some());
        first += usize::from(entry.is_some() && looks_like_options(&sheet.arguments[0]));
        misread += usize::from(!by_all.is_empty());
        // a letter that only another form has
        known += usize::from(alone.iter().any(|m| m.argument > 0 && !by_all.contains(m)));
    }
    assert!((CASES / 5..CASES / 4).contains(&words), "{words}");
    for seen in [first, misread, known] {
        assert!((CASES / 100..CASES / 5).contains(&seen), "{first} {misread} {known}");
    }
}

#[test]
fn dashed_batches_have_words_that_look_like_options() {
    let mut rng = Rng::new(1);
    let (mut sheets, mut misread, mut most) = (0, 0, 0);
    for _ in 0..CASES / 10 {
        let case = dashed_batch(&mut rng);
        let form = Form::check(&case.form).expect("an accepted form");
        let lines: Vec<Sheet> = case.sheets.iter().filter_map(|sheet| Sheet::check(sheet).ok()).collect();
        let words = lines.iter().filter(|line| !Reading::of(&form, &line.arguments).misread.is_empty()).count();
        sheets += case.sheets.len();
        misread += words;
        most += usize::from(case.sheets.len() == SHEETS && words > 0);
    }
    assert!((sheets / 8..sheets / 2).contains(&misread), "{misread} of {sheets}");
    assert!(most > CASES / 400, "{most}");
}

#[test]
fn idling_forms_have_repeats_of_all_sorts() {
    let mut rng = Rng::new(1);
    let mut seen: BTreeMap<(u16, u16, bool), usize> = BTreeMap::new();
    for _ in 0..CASES {
        let form = Form::check(&idling(&mut rng).write()).expect("an accepted form");
        let named = idle::repeats(&form);
        let repeats = (0..form.nodes.len()).filter(|k| idle::is_repeat(&form.nodes[*k]));
        repeats.for_each(|k| *seen.entry((form.nodes[k].kind, form.nodes[k].r, named.contains(&k))).or_default() += 1);
    }
    let sorts = [(MANY, 0), (MANY, 1), (SOME, 0), (SOME, 1), (COUNT, 0), (LAST, 0)];
    let all = sorts.iter().flat_map(|(kind, catch)| [false, true].map(|named| (*kind, *catch, named)));
    assert_eq!(seen.keys().copied().collect::<Vec<_>>(), all.collect::<Vec<_>>());
    assert!(seen.values().all(|n| *n > CASES / 20), "{seen:?}");
}

#[test]
fn short_lines_are_all_lines() {
    for (letters, arguments, bytes) in [(2, 2, 2), (3, 1, 4), (1, 4, 1), (2, 3, 1), (0, 3, 2), (4, 0, 3)] {
        let words: usize = (0..=bytes).map(|length| usize::pow(letters, length)).sum();
        let count: usize = (0..=arguments).map(|count| words.pow(count)).sum();
        let lines: Vec<Sheet> = short_lines(&b"vw-="[..letters], arguments as usize, bytes as usize).collect();
        assert_eq!(lines.len(), count);
        let different: BTreeSet<_> = lines.iter().map(|sheet| &sheet.arguments).collect();
        assert_eq!(different.len(), count);
    }
}

#[test]
fn short_lines_are_in_order() {
    let shown = |sheet: Sheet| String::from_utf8(sheet.arguments.join(&b' ')).unwrap();
    let lines: Vec<String> = short_lines(b"vw", 2, 1).map(shown).collect();
    // one empty argument and none look alike here
    assert_eq!(
        lines,
        ["", "", "v", "w", " ", " v", " w", "v ", "w ", "v v", "v w", "w v", "w w"]
    );
    let key = |sheet: &Sheet| {
        let lengths: Vec<usize> = sheet.arguments.iter().map(Vec::len).collect();
        (lengths.len(), lengths, sheet.arguments.concat())
    };
    assert!(short_lines(b"-vw", 2, 3).map(|sheet| key(&sheet)).is_sorted());
}

#[test]
fn sample_forms_are_accepted() {
    for form in sample_forms()
        .iter()
        .chain(&written(&LISTING))
        .chain(&written(&CROSSED))
    {
        assert!(Form::check(&form.write()).is_ok(), "{}", notation::show(form));
    }
}

/// The number that a table is refused with, or else its sheet.
fn refused_commands(case: &TableCase) -> u32 {
    let sheet = |_| Sheet::check(&case.sheet).map(drop);
    Table::check(&case.table).map_err(|r| r.refusal).and_then(sheet).map_or_else(|r| r.number, |()| 0)
}

#[test]
fn commanded_cases_are_well_made() {
    let mut rng = Rng::new(1);
    let (mut entries, mut names, mut first) = (BTreeSet::new(), BTreeSet::new(), 0);
    for _ in 0..CASES / 4 {
        let case = commanded(&mut rng);
        assert_eq!(refused_commands(&case), 0);
        let table = Table::check(&case.table).expect("a table");
        let sheet = Sheet::check(&case.sheet).expect("a sheet");
        entries.insert(table.commands.len());
        names.extend(table.commands.iter().map(|c| c.names.len()));
        let named = |c: &Command| c.tried().any(|name| sheet.arguments.first().is_some_and(|a| a == name.as_bytes()));
        first += usize::from(table.commands.iter().any(named));
    }
    assert!(entries.contains(&ENTRIES) && (1..=6).all(|n| entries.contains(&n)), "{entries:?}");
    assert!(names.contains(&NAMES) && (1..=9).all(|n| names.contains(&n)), "{names:?}");
    assert!((CASES / 8..CASES / 4 - CASES / 20).contains(&first), "{first}");
}

#[test]
fn damaged_commands_are_refused_in_every_way() {
    let mut rng = Rng::new(1);
    let mut numbers: BTreeMap<u32, usize> = BTreeMap::new();
    for _ in 0..CASES / 4 {
        *numbers.entry(refused_commands(&damaged_commands(&mut rng))).or_default() += 1;
    }
    assert_eq!(numbers.keys().copied().collect::<Vec<u32>>(), [0, 1, 2, 3, 4, 5, 6, 11]);
    assert!(numbers.values().all(|n| *n > CASES / 2000), "{numbers:?}");
    assert!(numbers[&0] < CASES / 8, "{numbers:?}");
}

#[test]
fn tables_at_their_limits() {
    for (table, refused) in limit_tables() {
        assert_eq!(Table::check(&table).is_err_and(|r| r.refusal == Refusal::new(11)), refused, "{} bytes", table.len());
    }
    for (_, table) in good_tables() {
        assert!(Table::check(&table).is_ok());
        let changed: BTreeSet<Vec<u8>> = each_byte(&table).collect();
        assert!(!changed.contains(&table) && changed.len() > 5 * table.len());
    }
}

/// The number that a form is refused with, or else a sheet.
fn refused(form: &[u8], sheet: &[u8]) -> u32 {
    let sheet = |_| Sheet::check(sheet).map(drop);
    Form::check(form).and_then(sheet).map_or_else(|r| r.number, |()| 0)
}

#[test]
fn batches_have_sheets_of_all_sorts() {
    let mut rng = Rng::new(1);
    let (mut counts, mut numbers, mut empty, mut twice) = (BTreeSet::new(), BTreeMap::new(), 0, 0);
    for _ in 0..CASES / 10 {
        let case = batched(&mut rng);
        counts.insert(case.sheets.len());
        empty += usize::from(case.sheets.contains(&Vec::new()));
        twice += usize::from(case.sheets.iter().collect::<BTreeSet<_>>().len() < case.sheets.len());
        let ended = case.sheets.iter().map(|sheet| refused(&case.form, sheet));
        ended.for_each(|number| *numbers.entry(number).or_insert(0) += 1);
    }
    assert!((0..=SHEETS + 8).all(|n| counts.contains(&n)), "{counts:?}");
    assert_eq!(numbers.keys().copied().collect::<Vec<u32>>(), [0, 1, 2, 3, 4, 5, 6]);
    assert!(numbers.values().all(|n| *n > CASES / 200), "{numbers:?}");
    assert!(empty > CASES / 100 && twice > CASES / 40, "{empty} {twice}");
}

#[test]
fn pairs_agree_on_one_sheet_alone() {
    let mut rng = Rng::new(1);
    for _ in 0..CASES / 10 {
        for ([a, b], k) in [agreeing(&mut rng), agreeing_dashed(&mut rng)] {
            let both = a.sheets.iter().zip(&b.sheets).enumerate();
            assert_eq!(both.filter(|(_, (a, b))| a == b).map(|(j, _)| j).collect::<Vec<_>>(), [k]);
            assert!(a.form == b.form && a.sheets.len().max(b.sheets.len()) <= SHEETS);
        }
    }
}

#[test]
fn batches_at_their_limits() {
    let read = |batch: &[u8]| batches::read(batch, batches::room(SHEETS)).map(|sheets| sheets.len());
    for case in good_batches().into_iter().chain([largest_batch()]) {
        assert_eq!(read(&batches::write(&case.sheets)), Ok(case.sheets.len()));
    }
    assert!(limit_batches().iter().all(|batch| read(batch).is_err()));
    for (number, form) in forms_at_fault() {
        assert_eq!(refused(&form, &[]), number);
    }
}
