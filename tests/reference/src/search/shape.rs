//! When two states count as one: a state's shape is the set of the terms
//! that tell it apart and of the events that stand, written out as trees,
//! with the nonces named in the order that gives the least text. Two states
//! have the same shape just if a renaming of nonces, each for one of the
//! same owner and partner, makes these sets equal.

use super::game::Game;
use super::history::Event;
use crate::table::*;

/// A state's shape, from those held entries whose terms tell it apart.
pub fn shape(game: &Game, telling: impl Fn(&Row) -> bool) -> Box<[u16]> {
    let mut items: Vec<Item> = game.history.standing().iter().map(item_of).collect();
    for (entry, row) in (1..).zip(rows(&game.table)) {
        if row[HANDLES] != 0 && telling(row) {
            items.push(([0; 3], vec![entry]));
        }
    }
    let view = View {
        table: &game.table,
        items,
    };
    let (mut order, runs) = view.order();
    view.least(&mut order, 0, &runs).into_boxed_slice()
}

/// An event or a held term: its sort and participants, and its entries.
type Item = ([u16; 3], Vec<u16>);

fn item_of(event: &Event) -> Item {
    match *event {
        Event::Started { u, v, m } => ([1, u, v], vec![m]),
        Event::Answered { v, u, m, k } => ([2, v, u], vec![m, k]),
        Event::Replied { u, v, m, k } => ([3, u, v], vec![m, k]),
        Event::Accepted { v, u, k } => ([4, v, u], vec![k]),
    }
}

/// What there is to write out.
struct View<'a> {
    table: &'a [u16],
    items: Vec<Item>,
}

impl View<'_> {
    /// The nonces, by what can be said of each without naming the others,
    /// and the lengths of the runs within which that doesn't decide.
    fn order(&self) -> (Vec<u16>, Vec<usize>) {
        let mut nonces = Vec::new();
        for entry in self.items.iter().flat_map(|(_, entries)| entries) {
            self.collect(*entry, &mut nonces);
        }
        let pair = |nonce: u16| [0, 1].map(|place| self.row(nonce)[ARGS + place]);
        let alike = |nonce| {
            nonces
                .iter()
                .filter(move |&&other| pair(other) == pair(nonce))
        };
        let said = |nonce| match alike(nonce).count() {
            1 => Vec::new(),
            _ => self.spell(&|other| u16::from(other == nonce)),
        };
        let mut known: Vec<_> = nonces.iter().map(|&x| (pair(x), said(x), x)).collect();
        known.sort();
        let runs = known.chunk_by(|a, b| (a.0, &a.1) == (b.0, &b.1));
        let runs = runs.map(<[_]>::len).collect();
        (known.into_iter().map(|(.., nonce)| nonce).collect(), runs)
    }

    fn collect(&self, entry: u16, nonces: &mut Vec<u16>) {
        if self.row(entry)[TYPE] == NONCE && !nonces.contains(&entry) {
            nonces.push(entry);
        }
        for &part in self.parts(entry) {
            self.collect(part, nonces);
        }
    }

    /// The least text over all orders within the runs, the first of which
    /// begins at a place. If two nonces can change places and the text stays
    /// as it is, one of them stands for both.
    fn least(&self, order: &mut [u16], from: usize, runs: &[usize]) -> Vec<u16> {
        let Some((&run, rest)) = runs.split_first() else {
            return self.spell_in(order);
        };
        if run < 2 {
            return self.least(order, from + run, rest);
        }
        let shorter = [&[run - 1], rest].concat();
        let here = self.spell_in(order);
        let mut least = self.least(order, from + 1, &shorter);
        for other in from + 1..from + run {
            order.swap(from, other);
            if self.spell_in(order) != here {
                least = least.min(self.least(order, from + 1, &shorter));
            }
            order.swap(from, other);
        }
        least
    }

    fn spell_in(&self, order: &[u16]) -> Vec<u16> {
        let place = |nonce| order.iter().position(|&other| other == nonce);
        self.spell(&|nonce| place(nonce).map_or(0, |place| place as u16))
    }

    /// The items as text, sorted and each once.
    fn spell(&self, name: &dyn Fn(u16) -> u16) -> Vec<u16> {
        let mut texts: Vec<Vec<u16>> = Vec::with_capacity(self.items.len());
        for (tag, entries) in &self.items {
            let mut text = tag.to_vec();
            for &entry in entries {
                self.write(entry, name, &mut text);
            }
            texts.push(text);
        }
        texts.sort();
        texts.dedup();
        texts.concat()
    }

    /// Writes a term as a tree: type and count first, so that no text of a
    /// term is the beginning of another's.
    fn write(&self, entry: u16, name: &dyn Fn(u16) -> u16, text: &mut Vec<u16>) {
        let row = self.row(entry);
        text.extend([row[TYPE], row[COUNT]]);
        match row[TYPE] {
            NONCE => text.extend([row[ARGS], row[ARGS + 1], name(entry)]),
            LIST => {}
            _ => text.push(row[ARGS]),
        }
        for &part in self.parts(entry) {
            self.write(part, name, text);
        }
    }

    /// The entries that a term is made of, a ciphertext's key left out.
    fn parts(&self, entry: u16) -> &[u16] {
        let row = self.row(entry);
        match row[TYPE] {
            LIST => &row[ARGS..ARGS + usize::from(row[COUNT])],
            CIPHERTEXT => &row[ARGS + 1..ARGS + 2],
            _ => &[],
        }
    }

    fn row(&self, entry: u16) -> &Row {
        row(self.table, Entry(entry))
    }
}
