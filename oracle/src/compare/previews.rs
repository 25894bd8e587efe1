//! Previews of takes: what each says, its places, and the state that would result. Against the second reading in previews.rs, on
//! good states and forged ones; against the take itself; live, against bpaf's own takes on a clone of its state, where the places
//! are those that its `present` gives before and no longer gives after.

use line::cases::Rng;
use line::forged::{Call, Lent};
use line::previews;
use proved::{Answer, PreviewAnswer};

use super::calls::{self, Said};
use super::{Compared, Goal};
use crate::lists::hex;

/// What the previews were that were compared.
#[derive(Default)]
struct Met {
    two: u64,
    one: u64,
    none: u64,
    refused: u64,
    cleared: u64,
    conflicts: u64,
    conflicts_used: u64,
    bpaf: u64,
}

impl Met {
    fn saw(&mut self, lent: &Lent, call: &Call, said: &PreviewAnswer) {
        let conflict = |mark: u16| (2..510).contains(&mark);
        let places = [said.lower, said.upper];
        match (said.answer.number, said.places) {
            (0, 2) => self.two += 1,
            (0, 1) => self.one += 1,
            (0, _) => self.none += 1,
            _ => self.refused += 1,
        }
        let not_taken = matches!(call, Call::TakeCmd(_)) && said.answer == Answer::default();
        self.cleared += u64::from(not_taken && lent.state.current != 0);
        self.conflicts += u64::from(lent.state.marks.iter().any(|m| conflict(*m)));
        let lost = places[..said.places as usize].iter().any(|k| conflict(lent.state.marks[*k as usize]));
        self.conflicts_used += u64::from(lost);
    }

    fn goals(&self, count: u64, live: u64) -> Vec<Goal> {
        let goal = |what, met, part| Goal { what, met, least: count / part };
        vec![
            goal("of two places", self.two, 50),
            goal("of one place", self.one, 10),
            goal("answered, of no place", self.none, 10),
            goal("refused", self.refused, 10),
            goal("of a command that is not taken, with a current place to clear", self.cleared, 200),
            goal("with conflicts among the marks", self.conflicts, 10),
            goal("that would use a place in conflict", self.conflicts_used, 200),
            Goal { what: "beside bpaf's own take", met: self.bpaf, least: live },
        ]
    }
}

fn ours(lent: &Lent, call: &Call) -> PreviewAnswer {
    match *call {
        Call::TakeFlag(node, field) => proved::preview_flag(lent, node, field),
        Call::TakeArg(node, field) => proved::preview_arg(lent, node, field),
        Call::TakePositional(field) => proved::preview_positional_word(lent, field),
        Call::TakeCmd(record) => proved::preview_cmd(lent, record),
        _ => unreachable!("not a take"),
    }
}

/// What must be handed back for what was said and these places: at most two, rising.
fn handed(said: &Said, places: &[usize]) -> PreviewAnswer {
    assert!(places.len() <= 2 && places.windows(2).all(|p| p[0] < p[1]), "at most two places, rising");
    let place = |k: usize| places.get(k).map_or(0, |p| *p as u32);
    PreviewAnswer { answer: said.answer, places: places.len() as u32, lower: place(0), upper: place(1), state: said.state }
}

/// The second reading.
fn again(lent: &Lent, call: &Call) -> PreviewAnswer {
    let p = previews::preview(lent, call);
    let [number, place, found, first, second] = p.told;
    handed(&Said::new(Answer { number, place, found, first, second }, p.state), &p.places)
}

/// One preview beside the second reading and beside the take itself on a copy.
fn compare_one(compared: &mut Compared, met: &mut Met, lent: &Lent, call: &Call) -> PreviewAnswer {
    let said = ours(lent, call);
    compared.cases += 1;
    compared.answered(said.answer.number);
    met.saw(lent, call, &said);
    let input = || format!("{call:?} on {} {} {:?}", hex(lent.form), hex(lent.sheet), lent.state);
    compared.same("preview", &input, said, again(lent, call));
    let take = calls::ours(lent, call);
    compared.same("preview and take", &input, (said.answer, said.state), (take.answer, take.state));
    said
}

/// Forged states, forms, sheets and items, with conflicts among the marks.
fn on_forgeries(rng: &mut Rng, compared: &mut Compared, met: &mut Met) {
    let forgery = calls::Forgery::new(rng).with_conflicts(rng);
    for _ in 0..4 {
        compare_one(compared, met, &forgery.lent(), &forgery.take(rng));
    }
}

/// A state of the real bpaf on its way through random calls, and its own take on a clone. What is refused for what it is told never
/// comes to a take.
#[cfg(live)]
fn on_walk(rng: &mut Rng, compared: &mut Compared, met: &mut Met) {
    let mut walk = calls::Walk::new(rng);
    for _ in 0..8 {
        walk.step(rng);
        let given = walk.state();
        let lent = walk.lent(&given);
        let call = calls::random_take(rng, &walk.form, 1);
        let said = compare_one(compared, met, &lent, &call);
        if line::forged::refusal(&lent, &call).is_none() {
            met.bpaf += 1;
            let (theirs, places) = walk.preview(&call);
            let input = || format!("{call:?} on {} {} {given:?}", hex(lent.form), hex(lent.sheet));
            compared.same("preview and bpaf", &input, said, handed(&theirs, &places));
        }
    }
}

/// So many previews; where bpaf is there, half of them and more are beside it too, but for those that it cannot be told.
pub fn compare(seed: u64, count: u64) -> Compared {
    let mut rng = Rng::new(seed);
    let (mut compared, mut met) = (Compared::default(), Met::default());
    while compared.cases < count {
        on_forgeries(&mut rng, &mut compared, &mut met);
        #[cfg(live)]
        on_walk(&mut rng, &mut compared, &mut met);
    }
    compared.goals = met.goals(count, if cfg!(live) { count / 4 } else { 0 });
    compared
}
