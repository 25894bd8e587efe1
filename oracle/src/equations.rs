//! Cases of the real bpaf as equations about the definitions in crates/rules/specs, each closed by computing. What is
//! written here is a file of antt for a crate of its own, which `oracle/equations` has checked.

use std::collections::BTreeMap;

use bpaf::doc::harness::{run_bytes, View, Wanted};
use line::{cases, cases::Case, cases::Rng, forged::too_short, format::*};

use crate::{lines, lists::short_case, script::Script};

/// The definitions' files, in the order in which they stand on one another.
const SPECS: [(&str, &[&str]); 3] = [
    ("utf8", &["Utf8"]),
    ("wire", &["Wire"]),
    (
        "rules",
        &[
            "Base", "Outcome", "Value", "Sheet", "Form", "Tree", "Accept", "Split", "State", "Take", "Eval", "Given", "Run", "Bench",
        ],
    ),
];

/// The least lengths of the slices of items, answers and list.
const LEAST: [usize; 3] = [1792, 8240, 192];

/// What is shown of a run and of a call, in the definitions' own words.
const SHOWN: &str = include_str!("equations.txt");

/// The names that a file marks `unfoldable`: computing needs them all by name.
fn unfoldable(text: &str) -> Vec<String> {
    let mut names = Vec::new();
    let mut mutual = false;
    for line in text.lines() {
        mutual = line == "unfoldable mutual" || mutual && (line.starts_with(' ') || line.is_empty());
        let declared = line.strip_prefix("unfoldable pub ").or(line.strip_prefix("  pub ").filter(|_| mutual));
        if let Some((name, _)) = declared.and_then(|d| d.split_once(" : ")) {
            names.push(name.to_string());
        }
    }
    names
}

/// The `use` lines of all definitions, and the names to unfold. A name that two files have is brought in under two.
fn header() -> (String, String) {
    let (mut uses, mut all) = (String::new(), Vec::<String>::new());
    for (name, files) in SPECS {
        for file in files {
            let path = format!("crates/{name}/specs/{file}.antt");
            let text = std::fs::read_to_string(&path).unwrap_or_else(|e| panic!("{path}: {e}"));
            let mut brought = Vec::new();
            for name in unfoldable(&text) {
                let fresh = !all.contains(&name);
                let own = if fresh { name.clone() } else { format!("{name}_of_{file}") };
                brought.push(if fresh { name } else { format!("{name} as {own}") });
                all.push(own);
            }
            uses.push_str(&format!("use Rattle.{name}.specs.{file}.{{{}}}\n", brought.join(", ")));
        }
    }
    (uses, format!("unfolding flatten xor shown_place shown_state shown_run shown_call on_line tree_named {}\n", all.join(" ")))
}

fn list<T: ToString>(numbers: impl IntoIterator<Item = T>) -> String {
    let mut out = String::from("(");
    numbers.into_iter().for_each(|n| out.push_str(&format!("{} ∷ ", n.to_string())));
    out + "[])"
}

fn place(place: Option<usize>) -> usize {
    place.map_or(0, |p| p + 1)
}

fn state_words(view: &View) -> Vec<usize> {
    let head = [view.remaining, place(view.current), view.scope.start, view.scope.end, view.marks.len()];
    head.into_iter().chain(view.marks.iter().map(|m| usize::from(*m))).collect()
}

/// A state as the definitions write it.
fn state_term(view: &View) -> String {
    let current = view.current.map_or("none".to_string(), |p| format!("some {p}"));
    format!(
        "(record {{ marks = {}; remaining = {}; current = {current}; start = {}; end = {} }})",
        list(&view.marks),
        view.remaining,
        view.scope.start,
        view.scope.end
    )
}

/// Equations with a count of what they cover.
#[derive(Default)]
struct Equations {
    text: String,
    unfolding: String,
    made: usize,
    covered: BTreeMap<String, usize>,
}

impl Equations {
    fn add(&mut self, left: &str, right: &str) {
        self.made += 1;
        let name = format!("case_{}", self.made);
        self.text.push_str(&format!("{name} : {left} ≡ {right}\n{}{name} = refl\n\n", self.unfolding));
    }

    fn cover(&mut self, what: String) {
        *self.covered.entry(what).or_default() += 1;
    }

    /// A whole run: number, place, tries, words, state, item records, every word of the list slice.
    fn run(&mut self, case: &Case, slices: [usize; 3]) {
        let ran = match too_short(slices[0], slices[1], slices[2]) {
            Some(refusal) => refused_slices(case, refusal),
            None => run_bytes(&case.form, &case.sheet, Wanted { items: true, ..Wanted::default() }),
        };
        let a = &ran.answer;
        let head = [a.number as usize, place(a.place), a.tries as usize, a.words.len()];
        let words = head.into_iter().chain(a.words.iter().map(|w| *w as usize)).chain(state_words(&ran.state));
        let mut listed = ran.missing.concat();
        listed.resize(slices[2], 0);
        let all = words.chain(ran.records.iter().flatten().chain(&listed).map(|w| *w as usize));
        let lengths = slices.map(|n| n.to_string()).join(" ");
        let left = format!("shown_run (run {} {} {lengths})", list(&case.form), list(&case.sheet));
        self.add(&left, &list(all));
        self.cover(format!("answer {}", a.number));
        if let Ok(form) = Form::check(&case.form) {
            form.nodes.iter().for_each(|n| self.cover(format!("kind {}", n.kind)));
        }
    }

    /// One call on a state that a few calls before it made.
    fn call(&mut self, case: &Case, rng: &mut Rng) -> Option<()> {
        let form = Form::check(&case.form).ok()?;
        let sheet = Sheet::check(&case.sheet).ok()?;
        let mut script = Script::new(form, &sheet).ok()?;
        for _ in 0..rng.below(6) {
            let call = script.random_call(rng);
            script.call(&call).expect("a random call is allowed");
        }
        let call = script.random_call(rng);
        let (given, second) = (script.view(), script.second_state(&call));
        let term = call_term(&call, &given, second.as_ref())?;
        let answer = script.call(&call).expect("a random call is allowed");
        let words = answer_words(&answer).into_iter().chain(state_words(&script.view()));
        let left = format!("on_line {} {} (λ a is. {term})", list(&case.form), list(&case.sheet));
        self.add(&left, &list(words));
        self.cover(call.split(' ').next().unwrap_or("").to_string());
        Some(())
    }
}

/// Slices that are too short are refused once form and sheet are accepted.
fn refused_slices(case: &Case, refusal: Refusal) -> bpaf::doc::harness::Run {
    let mut ran = run_bytes(&case.form, &case.sheet, Wanted::default());
    if ran.answer.number == 0 || ran.answer.number > 6 {
        ran.answer = Answer::refused(refusal, 0);
        ran.state = View::empty();
    }
    ran.records.clear();
    ran.missing.clear();
    ran
}

/// A call in the definitions' words; none for those that only move states about.
fn call_term(call: &str, given: &View, second: Option<&View>) -> Option<String> {
    let mut parts = call.split(' ');
    let name = parts.next()?;
    let numbers: Vec<&str> = parts.collect();
    let s = state_term(given);
    let t = second.map_or(String::new(), state_term);
    let n = |k: usize| numbers[k];
    Some(match name {
        "remove" => {
            format!("shown_call (remove (field_mark {}) {s} {} >>= λ u. ok (record {{ answer = []; state = u }}))", n(1), n(0))
        }
        "get" => format!("shown_call (ok (record {{ answer = bit (is_some (get is {s} {})) ∷ []; state = {s} }}))", n(0)),
        "conflict" => format!("shown_call (conflict is {s} >>= λ c. ok (record {{ answer = conflict_words c; state = {s} }}))"),
        "pick_winner" => format!("shown_call (ok (record {{ answer = picked_words (pick_winner {s} {t}); state = {s} }}))"),
        "save_conflicts" => format!("shown_call (ok (record {{ answer = []; state = save_conflicts {s} {t} {} }}))", n(1)),
        "set_scope" => {
            format!("shown_call (set_scope {s} {} {} >>= λ u. ok (record {{ answer = []; state = u }}))", n(0), n(1))
        }
        "adjacent_scope" => {
            format!("shown_call (adjacent_scope {s} {t} >>= λ c. ok (record {{ answer = scope_words c; state = {s} }}))")
        }
        "adjacently_available_from" => format!(
            "shown_call (ok (record {{ answer = scope_words (some (adjacently_available_from {s} {})); state = {s} }}))",
            n(0)
        ),
        "only_once" => {
            format!("shown_call (only_once is {} >>= λ p. ok (record {{ answer = shown_place p ∷ []; state = {s} }}))", n(0))
        }
        "matches_arg" => format!(
            "shown_call (ok (record {{ answer = match_words (tree_named a {}) (get_elem? is {}); state = {s} }}))",
            n(0),
            n(1)
        ),
        "take_flag" => format!("shown_took (take_flag (field_mark {}) is (tree_named a {}).0 {s})", n(1), n(0)),
        "take_arg" => {
            format!("shown_arg {s} (take_arg (field_mark {}) is (tree_named a {}).0 (tree_named a {}).1 {s})", n(1), n(0), n(0))
        }
        "take_positional_word" => format!("shown_operand (take_positional_word (field_mark {}) is {s})", n(0)),
        "take_cmd" => format!("shown_took (take_cmd command_mark is (record_bytes a {}) {s})", n(0)),
        "eval" => format!("shown_eval (eval_node a is {} {s})", n(0)),
        _ => return None,
    })
}

/// An answer of `Script::call` as numbers: `-` and no are 0, yes is 1, a number is itself plus 1.
fn answer_words(answer: &str) -> Vec<usize> {
    let number = |w: &str| w.parse::<usize>().expect("a number") + 1;
    let word = |w| match w {
        "-" | "no" => Some(0),
        "yes" => Some(1),
        "done" | "refused" | "tries" | "words" | "missing" => None,
        w => Some(number(w)),
    };
    answer.split(' ').filter_map(word).collect()
}

/// Cases that random ones seldom meet: 257 items, an ambiguous letter, a word on the wrong side of `--`, lines that are
/// split oddly, and lists with more than one entry or with some dropped.
fn rare() -> Vec<Case> {
    const LETTERS: &str = "switch(-v); switch(-q); optional(number(-w)); optional(flag(-b)); optional(text(-b)); many(operand)";
    let lines: [(&str, &[&[u8]]); 13] = [
        (LETTERS, &[b"-vvv" as &[u8]; 86]),
        (LETTERS, &[]),
        (LETTERS, &[b"-vb", b"x"]),
        (LETTERS, &[b"x", b"-vqb"]),
        (LETTERS, &[b"", b"-", b"---", b"--=7", b"-v=", b"--"]),
        (LETTERS, &[b"-vx", b"-\xff", b"-v\xc3\xa9", b"-vw=7", b"-w=7"]),
        (LETTERS, &[b"-vqw7", b"-vw", b"9", b"--", b"--", b"-v"]),
        ("non-strict; operand", &[b"--", b"a"]),
        ("optional(non-strict); many(operand)", &[b"--", b"a", b"b"]),
        ("choice(choice(text(-v), non-strict), text(-w))", &[b"--", b"x"]),
        ("choice(text(-w), non-strict)", &[b"--", b"x"]),
        ("choice(choice(text(-v), text(-w)), choice(last(text(-l)), operand))", &[b"-q"]),
        ("optional(choice(flag(-v), flag(-q))); guard(fallback(number(-w), 3), 1..5); choice(flag(-x), flag(-y))", &[b"--"]),
    ];
    let case = |(form, arguments): &(&str, &[&[u8]])| Case {
        form: line::notation::parse(form).expect("a form").write(),
        sheet: Sheet { arguments: arguments.iter().map(|a| a.to_vec()).collect() }.write(),
    };
    lines.iter().map(case).collect()
}

/// `count` runs, half as many single calls, a few rare cases, and the lines whose marks are known.
pub fn print(seed: u64, count: usize) {
    let mut rng = Rng::new(seed);
    let (uses, unfolding) = header();
    let mut equations = Equations { unfolding, ..Equations::default() };
    let marked = lines::marks().into_iter().map(|(form, sheet, ..)| Case { form: form.write(), sheet: sheet.write() });
    for case in rare().into_iter().chain(marked) {
        equations.run(&case, LEAST);
    }
    for slices in [[1791, 8240, 192], [1792, 8239, 192], [1792, 8240, 191], [1792, 8239, 191], [1792, 8240, 0]] {
        equations.run(&short_case(&mut rng, 0), slices);
    }
    for k in 0..count {
        let case = if k % 6 == 0 { short_damaged(&mut rng) } else { short_case(&mut rng, 0) };
        equations.run(&case, LEAST);
    }
    let mut calls = 0;
    while calls < count / 2 {
        let case = short_case(&mut rng, 0);
        calls += usize::from(equations.call(&case, &mut rng).is_some());
    }
    let covered: Vec<String> = equations.covered.iter().map(|(what, n)| format!("{what}: {n}")).collect();
    println!("-- {} equations. {}", equations.made, covered.join(", "));
    print!("{uses}{SHOWN}\n{}", equations.text);
}

fn short_damaged(rng: &mut Rng) -> Case {
    loop {
        let case = cases::damaged(rng);
        if case.form.len() + case.sheet.len() <= crate::lists::LONGEST {
            return case;
        }
    }
}
