//! The walk itself: breadth first over the states, each shape once.

use super::form::Form;
use super::game::Game;
use super::messages::within_reach;
use super::shape::shape;
use super::{every, messages, trim};
use crate::commands::Request;
use crate::table::*;
use std::collections::HashSet;

/// Which moves are tried.
#[derive(Clone, Copy, Debug, PartialEq, Eq)]
pub enum Guide {
    /// Steps of honest participants; knower 0's requests come with them.
    Messages,
    /// Single requests.
    Every,
}

/// What to search, and how many moves deep.
#[derive(Clone, Copy, Debug)]
pub struct Plan {
    pub form: Form,
    pub n: u16,
    pub mask: u16,
    pub depth: usize,
    pub guide: Guide,
}

/// The numbers of one depth.
#[derive(Clone, Copy, Debug, Default)]
pub struct Level {
    /// New states; at the last depth these aren't told apart.
    pub states: u64,
    pub moves: u64,
    pub requests: u64,
    /// Acceptances between honest participants that passed the check.
    pub passed: u64,
}

#[derive(Debug, Default)]
pub struct Report {
    pub levels: Vec<Level>,
    /// How many moves of the last level ended in a violation.
    pub violations: usize,
    /// The shortest of these, with no request that isn't needed.
    pub shortest: Option<Vec<Request>>,
}

impl Plan {
    /// A table with nothing but its keys, and room for every sequence: a
    /// move makes at most ten entries.
    pub fn game(&self) -> Game {
        let capacity = 2 * self.n + 10 * u16::try_from(self.depth).unwrap_or(u16::MAX / 16);
        Game::new(self.form, self.n, self.mask, capacity.clamp(16, 512))
    }

    pub(super) fn replay(&self, requests: &[Request]) -> Game {
        let mut game = self.game();
        for &request in requests {
            game.ask(request);
        }
        game
    }

    /// What each move leads to. In the last place only deliveries count.
    pub(super) fn each_child(&self, game: &Game, last: bool, mut visit: impl FnMut(Game)) {
        match self.guide {
            Guide::Every => {
                let requests = if last {
                    every::deliveries
                } else {
                    every::requests
                };
                for request in requests(game) {
                    let mut child = game.clone();
                    child.ask(request);
                    visit(child);
                }
            }
            Guide::Messages => {
                let moves = if last {
                    messages::deliveries
                } else {
                    messages::moves
                };
                for step in moves(game) {
                    let mut child = game.clone();
                    messages::play(&mut child, &step);
                    visit(child);
                }
            }
        }
    }

    /// The keys are the same in all states. With knower 0's requests free,
    /// only nonces and what it can't make tell its states apart.
    pub(super) fn shape(&self, game: &Game) -> Box<[u16]> {
        let free = self.guide == Guide::Messages;
        shape(game, |row| match row[TYPE] {
            SECRET_KEY | PUBLIC_KEY => false,
            NONCE if free => row[ARGS] != 0,
            DATA | LIST if free => false,
            CIPHERTEXT if free => !within_reach(&game.table, row[ARGS + 1]),
            _ => true,
        })
    }
}

/// Walks to the plan's depth, or through the first that has a violation,
/// and tells the numbers of each depth when it is done.
pub fn walk(plan: &Plan, mut tell: impl FnMut(usize, &Level)) -> Report {
    let mut report = Report::default();
    let root = plan.game();
    let mut seen = HashSet::from([plan.shape(&root)]);
    let mut states = vec![root.requests];
    for depth in 1..=plan.depth {
        let mut level = Level::default();
        let mut violations = Vec::new();
        let mut next = Vec::new();
        for requests in &states {
            let game = plan.replay(requests);
            plan.each_child(&game, depth == plan.depth, |child| {
                level.moves += 1;
                level.requests += (child.requests.len() - requests.len()) as u64;
                level.passed += child.history.passed - game.history.passed;
                if child.history.violated {
                    violations.push(child.requests);
                } else if depth < plan.depth && seen.insert(plan.shape(&child)) {
                    next.push(child.requests);
                }
            });
        }
        level.states = next.len() as u64;
        tell(depth, &level);
        report.levels.push(level);
        report.violations = violations.len();
        let trimmed = violations.into_iter().map(|found| trim::trim(plan, found));
        report.shortest = trimmed.min_by_key(Vec::len);
        if report.violations > 0 {
            break;
        }
        states = next;
    }
    report
}
