//! Scripts of single calls on a state: every method of the real `State` that the port has, by name.

use bpaf::doc::harness::{self, Held, View};
use line::{cases::Rng, format::*, marks::fields_of};

/// A place for "none" in an answer.
pub fn or_dash<T: ToString>(value: Option<T>) -> String {
    value.map_or("-".to_string(), |v| v.to_string())
}

pub fn show_state(view: &View) -> String {
    let marks: Vec<String> = view.marks.iter().map(u16::to_string).collect();
    format!(
        "count {} remaining {} current {} scope {} {} marks{}{}",
        view.marks.len(),
        view.remaining,
        or_dash(view.current),
        view.scope.start,
        view.scope.end,
        if marks.is_empty() { "" } else { " " },
        marks.join(" ")
    )
}

/// A state, and earlier states kept by number for the calls on two.
pub struct Script {
    form: Form,
    state: Held,
    kept: Vec<Held>,
}

impl Script {
    /// The state after the split, or refusal 8 or 9.
    pub fn new(form: Form, sheet: &Sheet) -> Result<Script, Refusal> {
        let (state, _, refused) = Held::split(&form, sheet);
        match refused {
            Some(r) => Err(r),
            None => Ok(Script { form, kept: vec![state.clone()], state }),
        }
    }

    pub fn view(&self) -> View {
        self.state.view()
    }

    /// The kept state that a call on two states names.
    pub fn second_state(&self, call: &str) -> Option<View> {
        let mut parts = call.split_whitespace();
        let two = ["pick_winner", "save_conflicts", "adjacent_scope"].contains(&parts.next()?);
        let k: usize = parts.next()?.parse().ok()?;
        two.then(|| self.kept.get(k).map(Held::view)).flatten()
    }

    fn kept(&self, k: usize) -> Result<&Held, String> {
        self.kept.get(k).ok_or(format!("no state is kept as {k}"))
    }

    fn node(&self, k: usize, kinds: &[u16]) -> Result<usize, String> {
        let good = self.form.nodes.get(k).is_some_and(|n| kinds.contains(&n.kind));
        good.then_some(k).ok_or(format!("no such node of that kind: {k}"))
    }

    /// A field of the form, or of any form for the calls that have none.
    fn field(&self, k: usize, form: Option<&Form>) -> Result<usize, String> {
        (k < fields_of(form)).then_some(k).ok_or(format!("no such field: {k}"))
    }

    /// One call, as `NAME NUMBER..`, and what it answers.
    pub fn call(&mut self, words: &str) -> Result<String, String> {
        let mut parts = words.split_whitespace();
        let name = parts.next().unwrap_or("");
        let numbers: Vec<usize> =
            parts.map(|p| p.parse().map_err(|_| format!("not a number: {p}"))).collect::<Result<_, _>>()?;
        match (name, numbers.as_slice()) {
            ("keep", []) => {
                self.kept.push(self.state.clone());
                Ok((self.kept.len() - 1).to_string())
            }
            ("load", [k]) => {
                self.state = self.kept(*k)?.clone();
                Ok("done".to_string())
            }
            ("take_flag" | "take_arg" | "take_positional_word" | "take_cmd" | "eval", _) => self.take(name, &numbers),
            ("can_catch" | "wrong_input" | "combine_with", _) => on_refusals(name, &numbers),
            _ => self.on_state(name, &numbers),
        }
    }

    fn on_state(&mut self, name: &str, numbers: &[usize]) -> Result<String, String> {
        Ok(match (name, numbers) {
            ("remove", [place, field]) => {
                self.state.remove(*place, self.field(*field, None)?);
                "done".to_string()
            }
            ("get", [place]) => yes_no(self.state.get(*place)),
            ("conflict", []) => or_dash(self.state.conflict().map(|(p, w)| format!("{p} {w}"))),
            ("pick_winner", [k]) => {
                let (first, place) = self.state.pick_winner(self.kept(*k)?);
                format!("{} {}", yes_no(first), or_dash(place))
            }
            ("save_conflicts", [k, place]) => {
                let loser = self.kept(*k)?.clone();
                self.state.save_conflicts(&loser, *place);
                "done".to_string()
            }
            ("set_scope", [start, end]) => {
                self.state.set_scope(*start..*end);
                "done".to_string()
            }
            ("adjacent_scope", [k]) => {
                or_dash(self.state.adjacent_scope(self.kept(*k)?).map(|s| format!("{} {}", s.start, s.end)))
            }
            ("adjacently_available_from", [start]) => {
                let scope = self.state.adjacently_available_from(*start);
                format!("{} {}", scope.start, scope.end)
            }
            ("only_once", [place]) => or_dash(self.state.only_once(*place)),
            ("matches_arg", [node, place]) => {
                let node = self.node(*node, &[FLAG, ARGUMENT])?;
                or_dash(self.state.matches_arg(&self.form, node, *place).map(yes_no))
            }
            _ => return Err(format!("no such call: {name} with {} numbers", numbers.len())),
        })
    }

    fn take(&mut self, name: &str, numbers: &[usize]) -> Result<String, String> {
        Ok(match (name, numbers) {
            ("take_flag", [node, field]) => {
                let (node, field) = (self.node(*node, &[FLAG])?, self.field(*field, Some(&self.form))?);
                yes_no(self.state.take_flag(&self.form, node, field))
            }
            ("take_arg", [node, field]) => {
                let (node, field) = (self.node(*node, &[ARGUMENT])?, self.field(*field, Some(&self.form))?);
                self.state.take_arg(&self.form, node, field).map_or_else(show_refusal, or_dash)
            }
            ("take_positional_word", [field]) => {
                let field = self.field(*field, None)?;
                let shown = |(place, strict): (usize, bool)| format!("{place} {}", yes_no(strict));
                self.state.take_positional_word(field).map_or_else(show_refusal, shown)
            }
            ("take_cmd", [record]) => {
                let good = self.form.names.get(*record).is_some_and(|n| n.ty <= LONG);
                let record = good.then_some(*record).ok_or(format!("no such name of that type: {record}"))?;
                yes_no(self.state.take_cmd(&self.form, record))
            }
            ("eval", [node]) if *node < self.form.nodes.len() => {
                let (a, missing) = self.state.eval(&self.form, *node);
                let (words, listed) = (spaced(&a.words), show_missing(&missing));
                format!("{} {} tries {} words{words}{listed}", a.number, or_dash(a.place), a.tries)
            }
            _ => return Err(format!("no such call: {name} with {} numbers", numbers.len())),
        })
    }

    /// A random call that the form and state allow. It is told a field of the form, so that the calls with a form allow the state
    /// that it leaves.
    pub fn random_call(&self, rng: &mut Rng) -> String {
        let view = self.view();
        let count = view.marks.len();
        let place = rng.below(count + 1);
        let node = rng.below(self.form.nodes.len());
        let kept = rng.below(self.kept.len());
        let kind = self.form.nodes[node].kind;
        let field = rng.below(self.form.fields.len());
        match rng.below(20) {
            0 | 1 if place < count => format!("remove {place} {field}"),
            2 => format!("get {place}"),
            3 => "conflict".to_string(),
            4 => format!("pick_winner {kept}"),
            5 | 6 if place < count => format!("save_conflicts {kept} {place}"),
            7 => format!("set_scope {} {}", place, place + rng.below(count + 1 - place)),
            8 => format!("adjacent_scope {kept}"),
            9 => format!("adjacently_available_from {place}"),
            10 if place < count => format!("only_once {place}"),
            11 if kind <= ARGUMENT && place < count => format!("matches_arg {node} {place}"),
            12 if !self.form.names.is_empty() => self.random_command(rng),
            13 => "keep".to_string(),
            14 => format!("load {kept}"),
            15 => format!("take_positional_word {field}"),
            _ => match kind {
                FLAG => format!("take_flag {node} {field}"),
                ARGUMENT => format!("take_arg {node} {field}"),
                _ => format!("eval {node}"),
            },
        }
    }

    fn random_command(&self, rng: &mut Rng) -> String {
        let record = rng.below(self.form.names.len());
        match self.form.names[record].ty {
            TEXT => "conflict".to_string(),
            _ => format!("take_cmd {record}"),
        }
    }
}

/// Each number behind a space.
fn spaced(numbers: &[u32]) -> String {
    numbers.iter().map(|n| format!(" {n}")).collect()
}

/// What refusal 20 lists, with the numbers of the list; nothing for any other answer.
fn show_missing(missing: &[Entry]) -> String {
    match missing {
        [] => String::new(),
        _ => format!(" missing{}", spaced(&missing.concat())),
    }
}

fn yes_no(value: bool) -> String {
    if value { "yes" } else { "no" }.to_string()
}

fn show_refusal(refusal: Refusal) -> String {
    format!("refused {} {}", refusal.number, or_dash(refusal.place))
}

/// Calls on refusals: a number, and for `combine_with` two numbers with a place each.
fn on_refusals(name: &str, numbers: &[usize]) -> Result<String, String> {
    let unknown = format!("no such refusal for {name}");
    let refusal = |number: usize, place: usize| {
        let placeless = [20, 21].contains(&number);
        Refusal { number: number as u32, place: (!placeless).then_some(place) }
    };
    match (name, numbers) {
        ("can_catch", [n]) => harness::can_catch(refusal(*n, 0)).map(yes_no).ok_or(unknown),
        ("wrong_input", [n]) => harness::wrong_input(refusal(*n, 0)).map(yes_no).ok_or(unknown),
        ("combine_with", [n, p, m, q]) => {
            let combined = harness::combine_with(refusal(*n, *p), refusal(*m, *q)).ok_or(unknown)?;
            Ok(format!("{} {}", combined.number, or_dash(combined.place)))
        }
        _ => Err(format!("no such call: {name} with {} numbers", numbers.len())),
    }
}
