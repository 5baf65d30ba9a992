//! Every single request that can change a table: with all handles that
//! knower 0 holds, and stores of all participants' numbers. Left out is only
//! what leaves the table as it is: parse, and requests that are refused for
//! their participants or their types.

use super::game::Game;
use crate::commands::Request;
use crate::table::*;

/// The deliveries, and no other request can end in an acceptance.
pub fn deliveries(game: &Game) -> Vec<Request> {
    let mut requests = Vec::new();
    for (r, s) in game.pairs() {
        let lists = game.held_of(LIST);
        requests.extend(lists.iter().map(|&(list, _)| Request::Deliver(s, r, list)));
    }
    requests
}

pub fn requests(game: &Game) -> Vec<Request> {
    let mut requests = deliveries(game);
    requests.extend(game.pairs().iter().map(|&(u, v)| Request::Start(u, v)));
    requests.extend(game.people().map(Request::Store));
    requests.push(Request::Nonce);
    requests.extend(lists(game));
    for (list, row) in game.held_of(LIST) {
        requests.extend((1..=row[COUNT]).map(|place| Request::Project(list, place)));
        let keys = game.held_of(PUBLIC_KEY);
        requests.extend(keys.iter().map(|&(key, _)| Request::Encrypt(key, list)));
    }
    for (text, _) in game.held_of(CIPHERTEXT) {
        let keys = game.held_of(SECRET_KEY);
        requests.extend(keys.iter().map(|&(key, _)| Request::Decrypt(key, text)));
    }
    requests
}

/// All lists of one to four things that knower 0 holds.
fn lists(game: &Game) -> Vec<Request> {
    let mut held = game.held();
    held.retain(|(_, row)| row[TYPE] != SECRET_KEY);
    let mut lists = Vec::new();
    let mut longest = vec![[0; 4]];
    for count in 1..=4 {
        let longer = |start: &[u16; 4], handle| {
            let mut handles = *start;
            handles[count - 1] = handle;
            handles
        };
        longest = longest
            .iter()
            .flat_map(|start| held.iter().map(move |&(handle, _)| longer(start, handle)))
            .collect();
        lists.extend(
            longest
                .iter()
                .map(|&handles| Request::List(count as u16, handles)),
        );
    }
    lists
}
