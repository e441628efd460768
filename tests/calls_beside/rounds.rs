//! Rounds of moves: each on states over the parts of a graph, which are merged one after another.

use crate::asking::Asker;
use crate::choosing::{BUILDING, NAMES, TAKING_DOWN};
use crate::draws::Draws;
use crate::game::Game;
use crate::moves::{Kind, Move};
use crate::shapes::{Plot, STAGES, Shape};
use crate::stopped::Stopped;
use fb_regions::SpareRegions;
use std::alloc::{AllocError, Global};

/// How many kinds are drawn before a game without an allowed move ends.
const TRIES: u32 = 100;

/// The depth from which on a nest counts as deep.
const DEEP: u64 = 10;

/// After how many percent of the comparisons trees are asked about. Each step of a tree makes deep nests rarer.
const ASKED: u64 = 50;

/// Draws the moves, and counts what comes up.
#[derive(Drop)]
pub struct Player {
    alloc: Global,
    draws: Draws,
    /// The room of a state that is no longer used.
    spare: Option<SpareRegions>,
    /// How many moves of each kind were made, in the order of `Kind::ALL`.
    pub made: [u64; 7],
    pub merged: u64,
    /// How many new nodes got the name of a blossom that had been split.
    pub named_again: u64,
    /// The depth of the deepest nest.
    pub deepest: u64,
    /// How many comparisons were made of states with a deep nest.
    pub deep: u64,
    /// How many comparisons found all observations as expected.
    pub passed: u64,
    /// Asks about trees after each comparison.
    pub asker: Asker,
}

impl Player {
    pub fn new(alloc: Global, seed: u64) -> Player {
        Player {
            alloc,
            draws: Draws::new(seed),
            spare: None,
            made: [0; 7],
            merged: 0,
            named_again: 0,
            deepest: 0,
            deep: 0,
            passed: 0,
            asker: Asker::new(alloc),
        }
    }

    /// Plays on a graph of this shape: this number of moves on its first part and after each merge, and at most as many on
    /// each further part.
    pub fn play_round(&mut self, shape: Shape, moves: u64) -> Result<(), Stopped> {
        let alloc = self.alloc;
        let plot = Plot::draw(alloc, &mut self.draws, shape)?;
        let mut parts = Vec::new(alloc);
        let mut wholes = Vec::new(alloc);
        for stage in 0..STAGES {
            parts.push(plot.part(alloc, stage)?)?;
            wholes.push(plot.up_to(alloc, stage)?)?;
        }
        let mut game = Game::new(alloc, self.spare.take(), &parts[0], 0)?;
        self.play(&mut game, moves)?;
        for (part, whole) in parts.iter().zip(wholes.iter()).skip(1) {
            let first_name = if self.draws.happens(50) { NAMES } else { 0 };
            let mut other = Game::new(alloc, self.spare.take(), part, first_name)?;
            let count = self.draws.below(moves + 1);
            self.play(&mut other, count)?;
            (game, self.spare) = game.merged(alloc, &mut self.draws, other, whole)?;
            self.merged += 1;
            self.compare(&mut game, None)?;
            self.play(&mut game, moves)?;
        }
        self.spare = Some(game.into_spare());
        Ok(())
    }

    /// Makes this number of moves, or fewer if none is allowed.
    fn play(&mut self, game: &mut Game<'_>, moves: u64) -> Result<(), Stopped> {
        let mut kinds = BUILDING.as_slice();
        for _ in 0..moves {
            if self.draws.happens(2) {
                kinds = TAKING_DOWN.as_slice();
            } else if self.draws.happens(5) {
                kinds = BUILDING.as_slice();
            }
            let Some((kind, next)) = self.draw(game, kinds)? else {
                return Ok(());
            };
            self.made[kind as usize] += 1;
            if let Move::Open { name, .. } | Move::Join { name, .. } = &next
                && game.is_freed(*name)
            {
                self.named_again += 1;
            }
            game.make(self.alloc, &next)?;
            self.compare(game, Some(&next))?;
        }
        Ok(())
    }

    /// A move of one of these kinds.
    fn draw(
        &mut self,
        game: &Game<'_>,
        kinds: &[Kind],
    ) -> Result<Option<(Kind, Move)>, AllocError> {
        for _ in 0..TRIES {
            if let Some(kind) = self.draws.pick(kinds)
                && let Some(next) = game.draw_move(self.alloc, &mut self.draws, kind)?
            {
                return Ok(Some((kind, next)));
            }
        }
        Ok(None)
    }

    /// Compares both states after a move, or after a merge, and asks about trees on them.
    fn compare(&mut self, game: &mut Game<'_>, last: Option<&Move>) -> Result<(), Stopped> {
        let depth = game.depth();
        self.deepest = self.deepest.max(depth);
        if depth >= DEEP {
            self.deep += 1;
        }
        let compared = self.compare_and_ask(game);
        if let Err(Stopped::Differ(found)) = compared {
            let text = match last {
                Some(last) => format!(in self.alloc; "after {last:?}: {found}")?,
                None => format!(in self.alloc; "after a merge: {found}")?,
            };
            return Err(Stopped::Differ(text));
        }
        compared
    }

    fn compare_and_ask(&mut self, game: &mut Game<'_>) -> Result<(), Stopped> {
        game.compare(self.alloc)?;
        self.passed += 1;
        if self.draws.happens(ASKED) {
            self.asker.ask(&mut self.draws, game)?;
        }
        Ok(())
    }
}
