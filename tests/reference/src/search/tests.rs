//! Tests of the search: the check refuses histories that were spoilt by
//! hand, shapes identify what they should, and Lowe's exchange is found.

use super::every;
use super::form::Form;
use super::game::Game;
use super::history::{asked_for, Event, History, Turn};
use super::messages::take_apart;
use super::walk::{walk, Guide, Plan};
use crate::commands::{Answer, Request};
use crate::formed::well_formed;
use crate::table::*;
use std::collections::HashSet;

/// A turn that can be spoilt.
#[derive(Clone)]
struct Kept {
    before: Vec<u16>,
    request: Request,
    answer: Answer,
    after: Vec<u16>,
}

/// Case 11. Its entries: 7 nonce m, 8 name 1, 9 list, 10 ciphertext, 11 outer
/// list; 12 nonce k, 13 name 2, 14 list, 15 and 16; 17 list of k, 18 and 19.
/// In the form of 1978 all after 12 are one lower.
fn honest_run(form: Form, mask: u16) -> Vec<Kept> {
    let first = 4 + u16::try_from(3 - mask.count_ones()).unwrap();
    let mut game = Game::new(form, 3, mask, 64);
    let requests = [
        Request::Start(1, 2),
        Request::Deliver(1, 2, first),
        Request::Deliver(2, 1, first + 1),
        Request::Deliver(1, 2, first + 2),
    ];
    let turns = requests.map(|request| {
        let before = game.table.clone();
        let answer = game.ask(request);
        let after = game.table.clone();
        Kept {
            before,
            request,
            answer,
            after,
        }
    });
    turns.to_vec()
}

/// How many acceptances passed, and whether one didn't.
fn judged(form: Form, turns: &[Kept]) -> (u64, bool) {
    let mut history = History::new(form);
    for turn in turns {
        history.add(&Turn {
            before: &turn.before,
            request: turn.request,
            answer: turn.answer,
            after: &turn.after,
        });
    }
    (history.passed, history.violated)
}

fn passes(turns: &[Kept]) -> bool {
    match judged(Form::Present, turns) {
        (1, false) => true,
        (0, true) => false,
        other => panic!("{other:?} of one acceptance"),
    }
}

/// Case 11 with some words of an entry changed in the tables of one turn.
fn spoilt(turn: usize, entry: usize, changes: &[(usize, u16)]) -> Vec<Kept> {
    let mut turns = honest_run(Form::Present, 3);
    let Kept { before, after, .. } = &mut turns[turn];
    assert!(usize::from(after[USED]) >= entry);
    for table in [before, after] {
        if usize::from(table[USED]) >= entry {
            for (place, value) in changes {
                table[HEAD + ROW * (entry - 1) + place] = *value;
            }
        }
    }
    turns
}

/// Case 11 with a list of one turn made longer or shorter.
fn with_count(turn: usize, list: usize, count: u16) -> Vec<Kept> {
    let last = ARGS + usize::from(count) - 1;
    spoilt(turn, list, &[(COUNT, count), (last, 8)])
}

fn in_order(places: &[usize]) -> Vec<Kept> {
    let turns = honest_run(Form::Present, 3);
    places.iter().map(|&place| turns[place].clone()).collect()
}

#[test]
fn case_11_passes() {
    let turns = honest_run(Form::Present, 3);
    assert_eq!(turns[3].answer, Answer::Accepted(2, 1));
    assert_eq!(turns[3].after[USED], 19);
    assert!(passes(&turns));
    assert!(passes(&spoilt(1, 14, &[])));
    assert!(passes(&in_order(&[0, 0, 1, 1, 2, 2, 3])));
}

#[test]
fn the_honest_run_of_1978_passes() {
    let turns = honest_run(Form::Of1978, 3);
    assert_eq!(judged(Form::Of1978, &turns), (1, false));
    // Each form's second message isn't the other's.
    assert_eq!(judged(Form::Present, &turns), (0, true));
    let turns = honest_run(Form::Present, 3);
    assert_eq!(judged(Form::Of1978, &turns), (0, true));
}

#[test]
fn only_the_honest_are_judged() {
    let mut turns = honest_run(Form::Present, 7);
    turns.remove(0);
    assert!(!passes(&turns));
    for turn in &mut turns {
        turn.before[MASK] = 6;
    }
    assert_eq!(judged(Form::Present, &turns), (0, false));
}

#[test]
fn a_missing_turn_is_refused() {
    for places in [[1, 2, 3], [0, 2, 3], [0, 1, 3]] {
        assert!(!passes(&in_order(&places)), "{places:?}");
    }
    assert!(!passes(&in_order(&[3])));
}

#[test]
fn a_wrong_order_is_refused() {
    let orders = [
        [0, 2, 1, 3],
        [1, 0, 2, 3],
        [1, 2, 0, 3],
        [2, 0, 1, 3],
        [2, 1, 0, 3],
        [0, 1, 3, 2],
        [3, 0, 1, 2],
    ];
    for order in orders {
        assert!(!passes(&in_order(&order)), "{order:?}");
    }
}

#[test]
fn a_wrong_nonce_is_refused() {
    let spoils = [
        // The start's nonce: of another owner, for another, no nonce.
        (0, 7, ARGS, 3),
        (0, 7, ARGS + 1, 3),
        (0, 7, TYPE, DATA),
        // The answer: another m, another k, k of another owner, for another.
        (1, 14, ARGS, 12),
        (1, 14, ARGS + 1, 7),
        (1, 12, ARGS, 1),
        (1, 12, ARGS + 1, 3),
        // The reply: to another m, to another k, m for another, with m.
        (2, 14, ARGS, 12),
        (2, 14, ARGS + 1, 7),
        (2, 7, ARGS + 1, 3),
        (2, 17, ARGS, 7),
        // The acceptance: of another nonce, of k for another.
        (3, 17, ARGS, 7),
        (3, 12, ARGS + 1, 3),
    ];
    for (turn, entry, place, value) in spoils {
        assert!(
            !passes(&spoilt(turn, entry, &[(place, value)])),
            "{turn} {entry} {place}"
        );
    }
}

#[test]
fn an_old_nonce_is_refused() {
    for (turn, nonce) in [(0, 7), (1, 12)] {
        let mut turns = honest_run(Form::Present, 3);
        turns[turn].before[USED] = nonce;
        assert!(!passes(&turns), "{nonce}");
    }
}

#[test]
fn a_wrong_length_of_a_list_is_refused() {
    // What is sent, what the reply is to, what is accepted.
    let inner = [
        (0, 9, 1),
        (0, 9, 3),
        (1, 14, 2),
        (1, 14, 4),
        (2, 17, 2),
        (2, 14, 2),
        (3, 17, 2),
    ];
    // The outer lists of what is sent.
    let outer = [(0, 11, 2), (1, 16, 2), (2, 19, 2)];
    for (turn, list, count) in inner.into_iter().chain(outer) {
        assert!(
            !passes(&with_count(turn, list, count)),
            "{turn} {list} {count}"
        );
    }
}

#[test]
fn what_a_receiver_ignores_is_ignored() {
    // A fourth element, and what stands beside a delivered ciphertext.
    for (turn, list, count) in [(2, 14, 4), (2, 16, 2), (3, 19, 2)] {
        assert!(
            passes(&with_count(turn, list, count)),
            "{turn} {list} {count}"
        );
    }
}

#[test]
fn a_wrong_key_or_name_is_refused() {
    for (turn, text) in [(0, 10), (1, 15), (2, 15), (2, 18), (3, 18)] {
        assert!(!passes(&spoilt(turn, text, &[(ARGS, 6)])), "{turn} {text}");
    }
    for (turn, name) in [(0, 8), (1, 13), (2, 13)] {
        assert!(!passes(&spoilt(turn, name, &[(ARGS, 3)])), "{turn} {name}");
    }
}

#[test]
fn a_wrong_request_or_answer_is_refused() {
    let swaps: [(usize, Request); 4] = [
        (0, Request::Start(1, 3)),
        (1, Request::Deliver(3, 2, 5)),
        (2, Request::Deliver(3, 1, 6)),
        (3, Request::Deliver(3, 2, 7)),
    ];
    for (turn, request) in swaps {
        let mut turns = honest_run(Form::Present, 3);
        turns[turn].request = request;
        assert!(!passes(&turns), "{request:?}");
    }
    for turn in 0..3 {
        let mut turns = honest_run(Form::Present, 3);
        turns[turn].answer = Answer::Dropped;
        assert!(!passes(&turns), "{turn}");
    }
}

fn longer(history: &History, event: Event) -> History {
    let mut longer = history.clone();
    longer.events.push(event);
    longer
}

/// The events that stand decide all that the check could ask later.
#[test]
fn standing_events_suffice() {
    let (u, v) = (1, 2);
    let mut all = vec![Event::Started { u, v, m: 7 }, Event::Started { u, v, m: 8 }];
    for (m, k) in [(7, 17), (7, 18), (8, 17), (8, 18)] {
        all.extend([
            Event::Answered { v, u, m, k },
            Event::Replied { u, v, m, k },
        ]);
    }
    let mut histories = vec![History::new(Form::Present)];
    for _ in 0..5 {
        histories = histories
            .iter()
            .flat_map(|history| all.iter().map(|&event| longer(history, event)))
            .collect();
        for history in &histories {
            let stand = history.standing();
            for k in [17, 18] {
                let rests = [7, 8].map(|m| stand.contains(&Event::Replied { u, v, m, k }));
                let asked = asked_for(&history.events, Event::Accepted { v, u, k });
                assert_eq!(asked, rests.contains(&true), "{history:?}");
            }
        }
    }
}

pub fn plan(form: Form, depth: usize, guide: Guide) -> Plan {
    let (n, mask) = (3, 3);
    Plan {
        form,
        n,
        mask,
        depth,
        guide,
    }
}

#[test]
fn lowes_exchange_is_found() {
    let report = walk(&plan(Form::Of1978, 4, Guide::Messages), |_, _| {});
    let lowes = [
        Request::Start(1, 3),
        Request::Project(5, 1),
        Request::Decrypt(3, 6),
        Request::Encrypt(2, 7),
        Request::List(1, [8, 0, 0, 0]),
        Request::Deliver(1, 2, 9),
        Request::Deliver(3, 1, 10),
        Request::Project(11, 1),
        Request::Decrypt(3, 12),
        Request::Encrypt(2, 13),
        Request::List(1, [14, 0, 0, 0]),
        Request::Deliver(1, 2, 15),
    ];
    assert_eq!(report.shortest.as_deref(), Some(&lowes[..]));
    assert!(report.levels[3].passed > 0);
    let mut game = plan(Form::Of1978, 4, Guide::Messages).game();
    for request in lowes {
        game.ask(request);
        assert!(well_formed(&game.table));
    }
    assert!(game.history.violated);
}

#[test]
fn the_present_form_shows_no_violation() {
    let report = walk(&plan(Form::Present, 5, Guide::Messages), |_, _| {});
    assert_eq!(report.violations, 0);
    assert!(report.levels[4].passed > 0);
}

#[test]
fn shapes_go_by_renaming() {
    let plan = plan(Form::Present, 8, Guide::Messages);
    let starts = [
        Request::Start(1, 2),
        Request::Start(1, 2),
        Request::Start(1, 3),
    ];
    let after = |list| {
        let mut game = plan.replay(&starts);
        game.ask(Request::Deliver(1, 2, list));
        take_apart(&mut game);
        plan.shape(&game)
    };
    assert_eq!(after(5), after(6));
    assert_ne!(after(5), after(7));
    assert_ne!(plan.shape(&plan.replay(&starts)), after(7));
    assert_ne!(
        plan.shape(&plan.replay(&starts[..2])),
        plan.shape(&plan.replay(&starts[1..]))
    );
}

/// All shapes that up to so many moves lead to, and the first.
pub fn shapes(plan: &Plan) -> HashSet<Box<[u16]>> {
    let mut states = vec![plan.game()];
    let mut seen = HashSet::from([plan.shape(&states[0])]);
    for _ in 0..plan.depth {
        let mut next = Vec::new();
        for state in &states {
            plan.each_child(state, false, |child| {
                if seen.insert(plan.shape(&child)) {
                    next.push(child);
                }
            });
        }
        states = next;
    }
    seen
}

/// Two single requests, after which all is taken apart, lead nowhere that
/// steps of honest participants don't lead.
#[test]
fn single_requests_lead_nowhere_else() {
    for form in [Form::Present, Form::Of1978] {
        let steps = plan(form, 2, Guide::Messages);
        let known = shapes(&steps);
        let single = plan(form, 2, Guide::Every);
        for first in every::requests(&single.game()) {
            let game = single.replay(&[first]);
            for second in every::requests(&game) {
                let mut game = game.clone();
                game.ask(second);
                take_apart(&mut game);
                assert!(known.contains(&steps.shape(&game)), "{first:?} {second:?}");
            }
        }
    }
}
