//! Sound certificates where the two questions part: unsuitable mergings with
//! each answer about closure, which the whole verdict does not tell.

use super::model::Model;
use super::valid::{
    certificate, closing_budget, complete, critical_budget, make_unsuitable, search_only,
    spoil_closure, stopping_budget, system, MIDDLE, SMALL,
};
use crate::judging::{closure, sharing, Closure, Sharing};
use crate::random::Random;
use crate::search::swift;

/// How the search for critical pairs is to end.
#[derive(Clone, Copy, Debug, PartialEq, Eq)]
pub enum Ending {
    Critical,
    Closed,
    Stopped,
}

impl Ending {
    pub const ALL: [Ending; 3] = [Ending::Critical, Ending::Closed, Ending::Stopped];
}

/// An unsuitable certificate whose search ends as wished, and not at once.
pub fn unsuitable(random: &mut Random, wished: Ending) -> Model {
    loop {
        let model = attempt(random, wished);
        if fits(&model, wished) {
            return model;
        }
    }
}

/// Transitions are only added behind `make_unsuitable`, or one is taken out:
/// mostly the marked pair still shares its tree.
fn attempt(random: &mut Random, wished: Ending) -> Model {
    let scale = if random.chance(80) { SMALL } else { MIDDLE };
    let mut model = system(random, scale);
    make_unsuitable(random, &mut model);
    let spoilt = match wished {
        Ending::Critical => true,
        Ending::Closed => false,
        Ending::Stopped => random.chance(50),
    };
    if spoilt {
        spoil_closure(random, &mut model);
    } else {
        complete(random, &mut model);
    }
    model.budget = budget(random, &model, wished);
    model
}

fn budget(random: &mut Random, model: &Model, wished: Ending) -> u64 {
    let end = search_only(model).examined();
    match wished {
        Ending::Critical => critical_budget(random, end, model.total()),
        Ending::Closed => closing_budget(random, end),
        Ending::Stopped if end == 0 => 0,
        Ending::Stopped => stopping_budget(random, end),
    }
}

fn fits(model: &Model, wished: Ending) -> bool {
    let certificate = certificate(model);
    let parted = matches!(sharing(&certificate), Sharing::Shared { .. });
    let closure = closure(&certificate, swift);
    let ended = matches!(
        (&closure, wished),
        (Closure::Critical(_), Ending::Critical)
            | (Closure::Closed { .. }, Ending::Closed)
            | (Closure::Stopped { .. }, Ending::Stopped)
    );
    parted && ended && closure.examined() > 1
}
