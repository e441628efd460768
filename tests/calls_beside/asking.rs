//! Asks what is in the way of trees of random roles, and compares the answers with the plain scan.

use crate::choosing::draw_length;
use crate::closed::has_no_odd_closed;
use crate::draws::Draws;
use crate::game::Game;
use crate::moves::Move;
use crate::obstacles::{Expected, Found, Scan};
use crate::roles::DrawnRoles;
use crate::stopped::Stopped;
use fb_graph::Steps;
use fb_obstacles::next_obstacle;
use std::alloc::{AllocError, Global};
use std::marker::Brand;
use std::sync::ledger::{Blank, Ledger};

/// The kinds of answers.
pub const KINDS: [&str; 8] = [
    "Absorb",
    "Boundary",
    "Meet",
    "PlusPair",
    "LayerEmpty",
    "BlossomEmpty",
    "ZeroMinus",
    "Free",
];

/// The place of the answer's kind in `KINDS`.
fn kind_of(answer: Found) -> usize {
    match answer {
        Found::Absorb(_) => 0,
        Found::Boundary(_) => 1,
        Found::Meet(_) => 2,
        Found::PlusPair(_) => 3,
        Found::LayerEmpty(_) => 4,
        Found::BlossomEmpty(_) => 5,
        Found::ZeroMinus(_) => 6,
        Found::Free(_) => 7,
    }
}

/// Asks about trees, and counts the answers that were as expected.
#[derive(Drop)]
pub struct Asker {
    alloc: Global,
    /// How often `next_obstacle` gave each kind of answer, in the order of `KINDS`.
    pub answers: [u64; 8],
    /// How often time passed, and all observations agreed after it.
    pub clock_steps: u64,
}

impl Asker {
    pub fn new(alloc: Global) -> Asker {
        Asker {
            alloc,
            answers: [0; 8],
            clock_steps: 0,
        }
    }

    /// How many answers were as expected, and after how many steps of the clock all observations agreed.
    pub fn passed(&self) -> u64 {
        let answers: u64 = self.answers.iter().sum();
        answers + self.clock_steps
    }

    /// Asks about trees of random roles, one after another with one watch, and ends at one of the obstacles. A tree that is
    /// free may step, and may be asked about again. No tree is asked about if a closed set holds an odd number of defects.
    pub fn ask(&mut self, draws: &mut Draws, game: &mut Game<'_>) -> Result<(), Stopped> {
        let alloc = self.alloc;
        if !has_no_odd_closed(alloc, game.plain.graph, &game.readings.defects)? {
            return Ok(());
        }
        game.watched.clear();
        let mut drawn = game.draw_roles(alloc, draws)?;
        while let Some(roles) = drawn {
            game.renew_watch(alloc, draws, &roles)?;
            if let Found::Free(length) = self.compare_answers(game, &roles)? {
                if draws.happens(50) {
                    let by = draw_length(draws, length);
                    if draws.happens(50) {
                        step(alloc, game, &roles, by)?;
                    } else {
                        self.let_time_pass(draws, game, &roles, by)?;
                    }
                }
            } else if draws.happens(50) {
                return Ok(());
            }
            drawn = if draws.happens(60) {
                Some(roles)
            } else {
                game.draw_roles(alloc, draws)?
            };
        }
        Ok(())
    }

    /// The tree steps by this length in two steps of the clock. All observations are compared while its nodes move.
    fn let_time_pass(
        &mut self,
        draws: &mut Draws,
        game: &mut Game<'_>,
        roles: &DrawnRoles,
        by: u64,
    ) -> Result<(), Stopped> {
        let first = draws.below(by + 1);
        for length in [first, by - first] {
            game.pass_time(self.alloc, roles, length)?;
            game.compare(self.alloc)?;
            self.clock_steps += 1;
        }
        game.rest(roles);
        game.compare(self.alloc)?;
        game.watched.lower(2 * by);
        Ok(())
    }

    /// Asks about the tree, and compares the answer and the watched edges with what is expected.
    pub fn compare_answers(
        &mut self,
        game: &mut Game<'_>,
        roles: &DrawnRoles,
    ) -> Result<Found, Stopped> {
        if !may_ask(game, roles) {
            let plus = &roles.plus;
            let text = format!(in self.alloc; "no call is allowed for plus nodes {plus:?}")?;
            return Err(Stopped::Differ(text));
        }
        let scan = Scan {
            alloc: self.alloc,
            plain: &game.plain,
            readings: &game.readings,
            roles,
        };
        let expected = scan.expected()?;
        let answer = answer_of::<Brand>(game, roles, Blank::new(1));
        self.expect(roles, answer, &expected)?;
        game.compare_watch(self.alloc, roles)?;
        self.answers[kind_of(answer)] += 1;
        Ok(answer)
    }

    /// Stops if the answer isn't one that is expected.
    fn expect(
        &self,
        roles: &DrawnRoles,
        answer: Found,
        expected: &Expected,
    ) -> Result<(), Stopped> {
        if expected.allows(answer) {
            return Ok(());
        }
        let (plus, minus) = (&roles.plus, &roles.minus);
        let text = format!(in self.alloc;
            "next_obstacle for plus nodes {plus:?} and minus nodes {minus:?} is {answer:?}, expected {expected:?}"
        )?;
        Err(Stopped::Differ(text))
    }
}

/// Whether those conditions of the call are met that change as the tree steps.
fn may_ask(game: &Game<'_>, roles: &DrawnRoles) -> bool {
    roles.have_one_parity(&game.readings)
        && game.watched.are_bounded(game.plain.graph, &game.readings, roles)
}

/// What the call says of the tree.
fn answer_of<L: Ledger>(game: &mut Game<'_>, roles: &DrawnRoles, looks: Blank) -> Found {
    let mut looks = Steps::<L>::new(looks);
    let regions = &game.regions;
    let watch = &mut game.watched.watch;
    let scope = regions.scope();
    Found::of(next_obstacle(watch, scope, regions, roles, &mut looks))
}

/// Each minus node shrinks by this length, and then each plus node grows by it. No residue falls by more than twice as much.
pub fn step(alloc: Global, game: &mut Game<'_>, roles: &DrawnRoles, by: u64) -> Result<(), AllocError> {
    for name in &roles.minus {
        game.make(alloc, &Move::Shrink { name: *name, by })?;
    }
    for name in &roles.plus {
        game.make(alloc, &Move::Grow { name: *name, by })?;
    }
    game.watched.lower(2 * by);
    Ok(())
}
