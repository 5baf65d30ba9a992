//! The test whether a lent run is a well-formed table.
//!
//! Readings chosen where the specification leaves room:
//! - A nonce's owner and partner are each at most n and nothing more is
//!   asked, so (0, 2), (2, 0) and (2, 2) pass, honest or not.
//! - There is no entry 0, so a zero among a list's elements or as a
//!   ciphertext's key or list doesn't pass.
//! - The key entries must be held by the right knowers, but under any
//!   handles: set-up's own numbers aren't asked for.
//! - One knower may have the same handle on two entries.
//! - Knowers above n count as not honest: they hold nothing and their next
//!   handle is 1.
//! - A key entry's count, unused arguments and length are tested like those
//!   of any other entry.

use crate::table::*;

/// Whether the run is a well-formed table.
pub fn well_formed(table: &[u16]) -> bool {
    let Some(head) = table.first_chunk::<HEAD>() else {
        return false;
    };
    head_formed(head)
        && table.len() >= words_for(head[CAPACITY])
        && keys_formed(table)
        && terms_formed(table)
        && handles_formed(head, rows(table))
}

fn head_formed(head: &[u16; HEAD]) -> bool {
    let [version, n, mask, capacity, used, ..] = *head;
    version == 1
        && in_range(n, mask, capacity)
        && (2 * n..=capacity).contains(&used)
        && head[NEXT + KNOWERS..] == [0, 0]
}

/// The first 2n entries are the keys, each with its right holders.
fn keys_formed(table: &[u16]) -> bool {
    let mask = head(table, MASK);
    let (pairs, _) = rows(table).as_chunks::<2>();
    (1..=head(table, PARTICIPANTS))
        .zip(pairs)
        .all(|(p, [secret, public])| {
            same_term(secret, Term::secret_key(p))
                && same_term(public, Term::public_key(p))
                && held_by(secret, |knower| secret_key_falls_to(mask, p, knower))
                && held_by(public, |knower| public_keys_fall_to(mask, knower))
        })
}

fn same_term(row: &Row, term: Term) -> bool {
    row[..HANDLES] == term.row()[..HANDLES]
}

fn held_by(row: &Row, holds: impl Fn(u16) -> bool) -> bool {
    (ADVERSARY..)
        .zip(&row[HANDLES..])
        .all(|(knower, &handle)| (handle != 0) == holds(knower))
}

/// Every used entry behind the keys is a term over earlier entries.
fn terms_formed(table: &[u16]) -> bool {
    let n = head(table, PARTICIPANTS);
    let rows = rows(table);
    (usize::from(2 * n)..rows.len()).all(|index| term_formed(n, &rows[..index], &rows[index]))
}

fn term_formed(n: u16, earlier: &[Row], row: &Row) -> bool {
    let (kind, count, args) = (row[TYPE], row[COUNT], &row[ARGS..LENGTH]);
    let unused = args.get(usize::from(count)..);
    if !unused.is_some_and(|unused| unused.iter().all(|&word| word == 0)) {
        return false;
    }
    let length = match (kind, count) {
        (DATA, 1) => Some(DATA_LENGTH),
        (NONCE, 2) if args[0] <= n && args[1] <= n => Some(NONCE_LENGTH),
        (LIST, 1..=4) => list_length(earlier, &args[..usize::from(count)]),
        (CIPHERTEXT, 2) => ciphertext_length(n, earlier, args[0], args[1]),
        _ => None,
    };
    length.is_some_and(|length| length <= LONGEST && length == u32::from(row[LENGTH]))
}

/// An entry's row, if it is among the earlier ones.
fn earlier_row(earlier: &[Row], entry: u16) -> Option<&Row> {
    earlier.get(usize::from(entry).checked_sub(1)?)
}

fn list_length(earlier: &[Row], elements: &[u16]) -> Option<u32> {
    elements.iter().try_fold(LIST_EXTRA, |sum, &element| {
        let row = earlier_row(earlier, element)?;
        (row[TYPE] != SECRET_KEY).then(|| sum + u32::from(row[LENGTH]))
    })
}

fn ciphertext_length(n: u16, earlier: &[Row], key: u16, list: u16) -> Option<u32> {
    let row = earlier_row(earlier, list)?;
    let names_key = key.is_multiple_of(2) && (2..=2 * n).contains(&key);
    (names_key && row[TYPE] == LIST).then(|| u32::from(row[LENGTH]) + CIPHERTEXT_EXTRA)
}

/// Only knower 0 and the honest hold entries, and the next handles agree.
fn handles_formed(head: &[u16; HEAD], rows: &[Row]) -> bool {
    let mut counts = [0u16; KNOWERS];
    for row in rows {
        for knower in 0..KNOWERS {
            let handle = row[HANDLES + knower];
            counts[knower] += u16::from(handle != 0);
            if handle >= head[NEXT + knower] {
                return false;
            }
        }
    }
    (ADVERSARY..).zip(counts).all(|(knower, count)| {
        let may_hold = public_keys_fall_to(head[MASK], knower);
        head[NEXT + usize::from(knower)] == count + 1 && (may_hold || count == 0)
    })
}
