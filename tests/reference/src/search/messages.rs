//! The moves that count, when knower 0's own requests are free: a start, or
//! the delivery of a message that an honest participant may take. Knower 0
//! takes apart all it is sent, and puts a message together only to deliver
//! it. Why this loses nothing stands in docs/TRIED.md.

use super::game::Game;
use crate::commands::{Answer, Request};
use crate::table::*;

/// Something to put into a message.
#[derive(Clone, Copy, Debug)]
pub enum Part {
    /// A nonce that a participant made, by knower 0's handle.
    Nonce(u16),
    /// Anything else: a nonce of knower 0 stands for it.
    Stuff,
    /// A participant's name.
    Name(u16),
}

/// A step of an honest participant, with all that leads to it.
#[derive(Clone, Debug)]
pub enum Move {
    Start(u16, u16),
    /// As if from, to, a list that was sent and can't be made.
    Pass(u16, u16, u16),
    /// As if from, to, what the message is made of.
    Make(u16, u16, Vec<Part>),
}

pub fn deliveries(game: &Game) -> Vec<Move> {
    let mut moves = Vec::new();
    let sent = sealed(game);
    for (r, s) in game.pairs() {
        moves.extend(sent.iter().map(|&list| Move::Pass(s, r, list)));
        let made = contents(game, s).into_iter();
        moves.extend(made.map(|parts| Move::Make(s, r, parts)));
    }
    moves
}

pub fn moves(game: &Game) -> Vec<Move> {
    let pairs = game.pairs();
    let starts = pairs.iter().map(|&(u, v)| Move::Start(u, v));
    starts.chain(deliveries(game)).collect()
}

pub fn play(game: &mut Game, step: &Move) {
    let answer = match step {
        Move::Start(u, v) => game.ask(Request::Start(*u, *v)),
        Move::Pass(s, r, list) => game.ask(Request::Deliver(*s, *r, *list)),
        Move::Make(s, r, parts) => {
            let list = make(game, *r, parts);
            game.ask(Request::Deliver(*s, *r, list))
        }
    };
    if let Answer::Sent(..) = answer {
        take_apart(game);
    }
}

/// Whether knower 0 has a term or can make it, having taken all apart.
pub fn within_reach(table: &[u16], entry: u16) -> bool {
    let row = row(table, Entry(entry));
    let count = usize::from(row[COUNT]);
    let made = match row[TYPE] {
        DATA => true,
        LIST => row[ARGS..LENGTH]
            .iter()
            .take(count)
            .all(|&element| within_reach(table, element)),
        CIPHERTEXT => within_reach(table, row[ARGS + 1]),
        _ => false,
    };
    made || row[HANDLES] != 0
}

/// The sent lists whose ciphertext knower 0 could not make itself.
fn sealed(game: &Game) -> Vec<u16> {
    let can_make = |text: u16| {
        let row = row(&game.table, Entry(text));
        row[TYPE] != CIPHERTEXT || within_reach(&game.table, row[ARGS + 1])
    };
    let mut lists = game.held_of(LIST);
    lists.retain(|(_, row)| row[COUNT] == 1 && !can_make(row[ARGS]));
    lists.into_iter().map(|(handle, _)| handle).collect()
}

/// What a message of knower 0's making can hold, as if from s: one or two
/// nonces or other things, with s's name after them or not. Whether these
/// are the right ones is left to the receiver.
fn contents(game: &Game, s: u16) -> Vec<Vec<Part>> {
    let mut nonces = game.held_of(NONCE);
    nonces.retain(|(_, row)| row[ARGS] != 0);
    let mut things = vec![Part::Stuff];
    things.extend(nonces.iter().map(|&(handle, _)| Part::Nonce(handle)));
    let mut contents = Vec::new();
    for &x in &things {
        contents.extend([vec![x], vec![x, Part::Name(s)]]);
        for &y in &things {
            contents.extend([vec![x, y], vec![x, y, Part::Name(s)]]);
        }
    }
    contents
}

/// Puts a message for r together and gives the handle of its outer list.
fn make(game: &mut Game, r: u16, parts: &[Part]) -> u16 {
    let handles: Vec<u16> = parts.iter().map(|&part| handle_for(game, part)).collect();
    let list = game.gain(list_of(&handles));
    let key = game.handle_on(public_key_of(r).0);
    let text = game.gain(Request::Encrypt(key, list));
    game.gain(list_of(&[text]))
}

fn handle_for(game: &mut Game, part: Part) -> u16 {
    match part {
        Part::Nonce(handle) => handle,
        Part::Name(p) => game.gain(Request::Store(p)),
        Part::Stuff => {
            let nonces = game.held_of(NONCE);
            let own = nonces.iter().find(|(_, row)| row[ARGS] == 0);
            own.map(|&(handle, _)| handle)
                .unwrap_or_else(|| game.gain(Request::Nonce))
        }
    }
}

fn list_of(handles: &[u16]) -> Request {
    let mut four = [0; 4];
    four[..handles.len()].copy_from_slice(handles);
    Request::List(handles.len() as u16, four)
}

/// Projects and decrypts until knower 0 has all that it can get so.
pub fn take_apart(game: &mut Game) {
    while let Some(request) = next_to_take(game) {
        game.gain(request);
    }
}

fn next_to_take(game: &Game) -> Option<Request> {
    let lists = game.held_of(LIST).into_iter().find_map(|(list, row)| {
        let mut places = 1..=row[COUNT];
        let element = |place: u16| row[ARGS + usize::from(place) - 1];
        let new = places.find(|&place| game.handle_on(element(place)) == 0)?;
        Some(Request::Project(list, new))
    });
    lists.or_else(|| {
        game.held_of(CIPHERTEXT)
            .into_iter()
            .find_map(|(text, row)| {
                let secret_key = game.handle_on(row[ARGS] - 1);
                let new = secret_key != 0 && game.handle_on(row[ARGS + 1]) == 0;
                new.then_some(Request::Decrypt(secret_key, text))
            })
    })
}
