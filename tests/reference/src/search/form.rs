//! The switch between the two forms of the handshake that are searched.
//!
//! The present form is the reference's own machine, as it is. The form of
//! 1978 is that machine with another reading and answering of messages of
//! two and more elements:
//! - The answer to a first message is (x1, nonce), without a name.
//! - A list of two is a first message if x2 is data of value s. Failing
//!   that, it is a second message if x1 is a nonce (r, s), and x2 goes back.
//! - Lists of three or four are dropped.
//!
//! So no list is taken both ways, and what an honest participant made as a
//! first message is never taken for a second one or the other way round.

use crate::commands::{act, admit, adversary_holds, of_type, Answer, Outcome, Request};
use crate::steps::*;
use crate::table::*;

/// Which handshake is played.
#[derive(Clone, Copy, Debug, PartialEq, Eq)]
pub enum Form {
    /// The second message names its sender: (m, k, v).
    Present,
    /// The second message of 1978: (m, k).
    Of1978,
}

impl Form {
    /// Performs a request on a table that is known to be well formed.
    pub(super) fn perform(self, table: &mut [u16], request: Request) -> Answer {
        match (self, request) {
            (Form::Of1978, Request::Deliver(s, r, list)) => {
                deliver_of_1978(table, s, r, Handle(list)).unwrap_or_else(Answer::Refused)
            }
            _ => act(table, request),
        }
    }
}

fn deliver_of_1978(table: &mut [u16], s: u16, r: u16, handle: Handle) -> Outcome {
    pair_fits(table, r, s)?;
    let delivered = adversary_holds(table, handle)?;
    of_type(table, delivered, LIST)?;
    let Some(opened) = open(table, r, delivered) else {
        return Ok(Answer::Dropped);
    };
    let [x1, x2, ..] = opened.elements;
    match opened.count {
        1 if is_nonce(table, x1, r, s) => {
            learn(table, r, &opened);
            Ok(Answer::Accepted(r, s))
        }
        2 if is_data(table, x2, s) => answer_first_of_1978(table, s, r, &opened),
        2 if is_nonce(table, x1, r, s) => answer_second(table, s, r, &opened),
        _ => Ok(Answer::Dropped),
    }
}

/// The answer that carries x1 back along with a nonce, and no name.
fn answer_first_of_1978(table: &mut [u16], s: u16, r: u16, opened: &Opened) -> Outcome {
    let x1 = opened.elements[0];
    let length = LIST_EXTRA + length(table, x1) + NONCE_LENGTH;
    admit(table, sealed(length), 4)?;
    learn(table, r, opened);
    let nonce = make(table, r, Term::nonce(r, s));
    let list = make(table, r, Term::list(2, [x1.0, nonce.0, 0, 0], length));
    Ok(send(table, r, s, list))
}
