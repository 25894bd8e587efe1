//! Which field used a place: every mark that a whole run leaves, against the fields of the real bpaf, run one after the other on
//! one state. Beside generated runs, the lines whose marks are known.

use std::collections::BTreeSet;

use bpaf::doc::harness::Run;
use line::{cases, cases::Case, cases::Rng, marks};

use super::{run::LEAST, Compared, Goal};
use crate::lines;

/// What the runs that were compared had.
#[derive(Default)]
struct Seen {
    runs: u64,
    differing: u64,
    two: u64,
    put_back: u64,
    kept: u64,
    later: u64,
    conflicts: u64,
    markers: u64,
    fields: BTreeSet<u16>,
}

impl Seen {
    fn run(&mut self, ran: &Run, differs: bool) {
        let left = &ran.state.marks;
        let fields: BTreeSet<u16> = left.iter().copied().filter(|mark| *mark >= marks::FIELD).collect();
        // a state was put back that had the marks of the split or of an earlier field
        let older = |field: usize| left.iter().any(|mark| marks::used(*mark) && *mark < marks::mark_of(field));
        self.runs += 1;
        self.differing += u64::from(differs);
        self.two += u64::from(fields.len() >= 2);
        self.put_back += u64::from(!ran.put_back.is_empty());
        self.kept += u64::from(ran.put_back.iter().any(|back| older(back.field)));
        self.later += u64::from(ran.put_back.iter().any(|back| marks::used(left[back.place])));
        self.conflicts += u64::from(left.iter().any(|mark| *mark != 0 && !marks::used(*mark)));
        self.markers += u64::from(left.contains(&marks::MARKER));
        self.fields.extend(fields);
    }

    /// The least counts, in the proportion of the runs that were asked for.
    fn goals(&self, count: u64) -> Vec<Goal> {
        let goal = |what: &'static str, met: u64, least: u64| Goal { what, met, least };
        vec![
            goal("runs", self.runs, count),
            goal("different field numbers", self.fields.len() as u64, 16.min(count / 1000)),
            goal("runs with two field numbers or more", self.two, count / 8),
            goal("runs in which a state was put back", self.put_back, count / 8),
            goal("runs in which a state with older marks was put back", self.kept, count / 20),
            goal("runs in which a place was put back and a later field used it", self.later, count / 40),
            goal("runs with a conflict mark", self.conflicts, count / 100),
            goal("runs with a used `--`", self.markers, count / 20),
        ]
    }
}

impl Compared {
    /// A run, and whether it differs.
    fn marked(&mut self, case: &Case) -> (Run, bool) {
        let before = self.differ;
        let ran = self.run(case, LEAST);
        (ran, self.differ > before)
    }

    /// Lines whose marks are known: the real bpaf's, and the proved code's.
    fn known_marks(&mut self) {
        for (form, sheet, want, back) in lines::marks() {
            let (ran, _) = self.marked(&Case { form: form.write(), sheet: sheet.write() });
            let input = || format!("{} on {:?}", line::notation::show(&form), sheet.arguments);
            self.same("known marks", &input, want, ran.state.marks);
            self.same("known places put back", &input, back, lines::places(&ran.put_back));
        }
    }
}

/// Half of the runs are of forms whose fields want the same items.
pub fn compare(seed: u64, count: u64) -> Compared {
    let (mut compared, mut seen) = (Compared::default(), Seen::default());
    let mut rng = Rng::new(seed);
    compared.known_marks();
    for k in 0..count {
        let case = match k % 4 {
            0 => cases::well_made(&mut rng),
            1 => cases::wanting(&mut rng),
            _ => cases::contested(&mut rng),
        };
        let (ran, differs) = compared.marked(&case);
        seen.run(&ran, differs);
    }
    println!("{} runs, {} of them differ", seen.runs, seen.differing);
    compared.goals = seen.goals(count);
    compared
}
