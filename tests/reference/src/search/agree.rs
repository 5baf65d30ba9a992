//! A test of the guidance: requests at random, with no thought of messages,
//! never lead to a state that the steps of honest participants don't lead to.

use super::form::Form;
use super::game::Game;
use super::messages::{take_apart, within_reach};
use super::tests::{plan, shapes};
use super::walk::{Guide, Plan};
use crate::cases::Random;
use crate::commands::{Answer, Request};
use crate::table::*;

const STEPS: usize = 4;

/// Any of these handles, often the last, for what was made is there to be
/// used; 0, which is refused, if there is none.
fn any(held: &[(u16, Row)], random: &mut Random) -> u16 {
    match held.last() {
        Some(&(last, _)) if random.one_in(2) => last,
        Some(_) => random.pick(held).0,
        None => 0,
    }
}

fn any_of(game: &Game, kind: u16, random: &mut Random) -> u16 {
    any(&game.held_of(kind), random)
}

/// A ciphertext alone, or one to four things, of which any may be data.
fn any_list(game: &Game, random: &mut Random) -> Request {
    let mut listable = game.held();
    listable.retain(|(_, row)| row[TYPE] != SECRET_KEY);
    if random.one_in(3) {
        return Request::List(1, [any_of(game, CIPHERTEXT, random), 0, 0, 0]);
    }
    let count = random.between(1, 4);
    let mut handles = [0; 4];
    for handle in &mut handles[..usize::from(count)] {
        *handle = match random.below(3) {
            0 => any_of(game, DATA, random),
            1 => any_of(game, NONCE, random),
            _ => any(&listable, random),
        };
    }
    Request::List(count, handles)
}

fn any_request(game: &Game, random: &mut Random) -> Request {
    let (r, s) = *random.pick(&game.pairs());
    match random.below(40) {
        0 => Request::Start(r, s),
        1..=10 => Request::Deliver(s, r, any_of(game, LIST, random)),
        11..=13 => Request::Store(random.between(1, 3)),
        14 => Request::Nonce,
        15..=18 => Request::Project(any_of(game, LIST, random), random.between(1, 4)),
        19..=26 => Request::Encrypt(
            random.pick(&game.held_of(PUBLIC_KEY)).0,
            any_of(game, LIST, random),
        ),
        27..=29 => Request::Decrypt(
            any_of(game, SECRET_KEY, random),
            any_of(game, CIPHERTEXT, random),
        ),
        _ => any_list(game, random),
    }
}

/// The state as the search would have it: all taken apart, and one nonce of
/// knower 0 for whatever else an honest participant was made to send back.
fn plainly(game: &Game) -> Game {
    let mut plain = game.clone();
    take_apart(&mut plain);
    plain.ask(Request::Nonce);
    let stuff = head(&plain.table, USED);
    for (_, text) in plain.held_of(CIPHERTEXT) {
        let list = text[ARGS + 1];
        let first = row(&plain.table, Entry(list))[ARGS];
        let [kind, owner] = [TYPE, ARGS].map(|place| row(&plain.table, Entry(first))[place]);
        if !within_reach(&plain.table, list) && (kind != NONCE || owner == 0) {
            plain.table[HEAD + ROW * usize::from(list - 1) + ARGS] = stuff;
        }
    }
    plain
}

/// Plays at random until there were enough steps, and gives the states after
/// each step, with whether the step took a message of knower 0's making.
fn played(plan: &Plan, random: &mut Random) -> Vec<(Game, bool)> {
    let mut game = Game::new(plan.form, plan.n, plan.mask, 512);
    let mut states = Vec::new();
    for _ in 0..150 {
        let request = any_request(&game, random);
        let own = matches!(request, Request::Deliver(_, _, list) if made_by_adversary(&game, list));
        if let Answer::Sent(..) | Answer::Accepted(..) = game.ask(request) {
            states.push((game.clone(), own));
        }
        if states.len() == STEPS {
            break;
        }
    }
    states
}

/// Whether nobody but knower 0 holds the ciphertext that a list begins with.
fn made_by_adversary(game: &Game, list: u16) -> bool {
    let Some(outer) = held(&game.table, ADVERSARY, Handle(list)) else {
        return false;
    };
    let text = Entry(row(&game.table, outer)[ARGS]);
    row(&game.table, text)[HANDLES + 1..]
        .iter()
        .all(|&handle| handle == 0)
}

#[test]
fn random_requests_lead_nowhere_else() {
    for form in [Form::Present, Form::Of1978] {
        let steps = plan(form, STEPS, Guide::Messages);
        let known = shapes(&steps);
        let mut random = Random::new(1);
        let (mut taken, mut deep) = (0, 0);
        for _ in 0..3000 {
            let states = played(&steps, &mut random);
            deep += usize::from(states.len() == STEPS);
            for (game, own) in &states {
                taken += usize::from(*own);
                assert!(
                    known.contains(&steps.shape(&plainly(game))),
                    "{:?}",
                    game.requests
                );
            }
        }
        println!("{form:?}: {deep} of 3000 deep enough, {taken} own messages taken");
        assert!(deep > 300 && taken > 100);
    }
}
