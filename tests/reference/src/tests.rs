//! Tests: the specification's played cases 1 to 11, then bounds, order of
//! refusals and other telling points.

use crate::table::*;
use crate::*;

const SESSION: [u8; 44] = [
    1, 0, 7, 0, 0, 3, 0, 3, 0, 64, 0, 5, 1, 0, 1, 0, 2, 0, 7, 2, 0, 1, 0, 2, 0, 5, 0, 7, 2, 0, 2,
    0, 1, 0, 6, 0, 7, 2, 0, 1, 0, 2, 0, 7,
];

fn fresh(n: u16, mask: u16, capacity: u16) -> Vec<u16> {
    let mut table = vec![0; words_for(capacity)];
    assert_eq!(set_up(&mut table, n, mask, capacity), Answer::Ready(2 * n));
    assert!(well_formed(&table));
    table
}

fn usual() -> Vec<u16> {
    fresh(3, 3, 64)
}

/// Performs a command, also untested, and looks after what must always hold.
fn ask(table: &mut [u16], request: Request) -> Answer {
    let before = table.to_vec();
    let mut copy = before.clone();
    let answer = step(table, request);
    assert_eq!(act(&mut copy, request), answer);
    assert_eq!(copy, table);
    assert!(well_formed(table));
    if matches!(
        answer,
        Answer::Refused(_) | Answer::Dropped | Answer::Parsed(..)
    ) {
        assert_eq!(before, table);
    }
    answer
}

fn handle(table: &mut [u16], request: Request) -> u16 {
    match ask(table, request) {
        Answer::Handle(handle) => handle,
        other => panic!("{request:?} gave {other:?}"),
    }
}

fn one(handle: u16) -> Request {
    Request::List(1, [handle, 0, 0, 0])
}

fn refused(number: u16) -> Answer {
    Answer::Refused(number)
}

fn handles_of(table: &[u16], knower: usize) -> Vec<(u16, u16)> {
    (1..)
        .zip(rows(table))
        .map(|(entry, row)| (entry, row[HANDLES + knower]))
        .filter(|&(_, handle)| handle != 0)
        .collect()
}

#[test]
fn case_1_set_up() {
    let table = usual();
    assert_eq!(handles_of(&table, 0), [(2, 1), (4, 2), (5, 3), (6, 4)]);
    assert_eq!(handles_of(&table, 1), [(1, 1), (2, 2), (4, 3), (6, 4)]);
    assert_eq!(handles_of(&table, 3), []);
}

#[test]
fn case_2_start() {
    let mut table = usual();
    assert_eq!(ask(&mut table, Request::Start(1, 2)), Answer::Sent(1, 2, 5));
    assert_eq!(table[USED], 11);
    assert_eq!(ask(&mut table, Request::Parse(5)), Answer::Parsed(3, 1, 30));
    let entry = |number: u16| &rows(&table)[usize::from(number) - 1];
    assert_eq!(entry(7)[..8], [2, 2, 1, 2, 0, 0, 8, 0]);
    assert_eq!(entry(8)[..8], [1, 1, 1, 0, 0, 0, 2, 0]);
    assert_eq!(entry(9)[..8], [3, 2, 7, 8, 0, 0, 12, 0]);
    assert_eq!(entry(10)[..8], [4, 2, 4, 9, 0, 0, 28, 0]);
    assert_eq!(entry(11)[..8], [3, 1, 10, 0, 0, 0, 30, 5]);
    assert_eq!(
        handles_of(&table, 1)[4..],
        [(7, 5), (8, 6), (9, 7), (10, 8), (11, 9)]
    );
}

#[test]
fn case_3_participants() {
    let mut table = usual();
    assert_eq!(ask(&mut table, Request::Start(1, 1)), refused(3));
    assert_eq!(ask(&mut table, Request::Start(3, 1)), refused(3));
    assert_eq!(ask(&mut table, Request::Start(2, 3)), Answer::Sent(2, 3, 5));
}

#[test]
fn case_4_room() {
    let mut table = fresh(8, 1, 20);
    assert_eq!(ask(&mut table, Request::Start(1, 2)), refused(10));
    let mut table = fresh(8, 1, 21);
    assert!(matches!(
        ask(&mut table, Request::Start(1, 2)),
        Answer::Sent(1, 2, _)
    ));
}

#[test]
fn case_5_wrong_key() {
    let mut table = usual();
    ask(&mut table, Request::Start(1, 2));
    assert_eq!(handle(&mut table, Request::Project(5, 1)), 6);
    assert_eq!(ask(&mut table, Request::Decrypt(3, 6)), refused(8));
}

#[test]
fn case_6_store_twice() {
    let mut table = usual();
    assert_eq!(handle(&mut table, Request::Store(7)), 5);
    assert_eq!(handle(&mut table, Request::Store(7)), 5);
}

#[test]
fn case_7_places() {
    let mut table = usual();
    ask(&mut table, Request::Start(1, 2));
    assert_eq!(ask(&mut table, Request::Project(5, 2)), refused(7));
    assert_eq!(ask(&mut table, Request::Project(5, 0)), refused(4));
    assert_eq!(ask(&mut table, Request::Project(9, 0)), refused(4));
}

#[test]
fn case_8_lowe() {
    let mut table = usual();
    assert_eq!(ask(&mut table, Request::Start(1, 3)), Answer::Sent(1, 3, 5));
    assert_eq!(handle(&mut table, Request::Project(5, 1)), 6);
    assert_eq!(handle(&mut table, Request::Decrypt(3, 6)), 7);
    assert_eq!(handle(&mut table, Request::Encrypt(2, 7)), 8);
    assert_eq!(handle(&mut table, one(8)), 9);
    let answer = ask(&mut table, Request::Deliver(1, 2, 9));
    assert_eq!(answer, Answer::Sent(2, 1, 10));
    for sender in [3, 2] {
        let answer = ask(&mut table, Request::Deliver(sender, 1, 10));
        assert_eq!(answer, Answer::Dropped);
    }
}

#[test]
fn case_9_last_participant() {
    let mut table = fresh(8, 255, 64);
    assert_eq!(ask(&mut table, Request::Start(1, 8)), Answer::Sent(1, 8, 9));
    let answer = ask(&mut table, Request::Deliver(1, 8, 9));
    assert_eq!(answer, Answer::Sent(8, 1, 10));
}

#[test]
fn case_10_version() {
    assert_eq!(play(&[2]), b"0 refused 11\n");
}

#[test]
fn case_11_honest_run() {
    let lines = b"1 ready 6\n2 sent 1 2 5\n3 sent 2 1 6\n4 sent 1 2 7\n5 accepted 2 1\n";
    assert_eq!(play(&SESSION), lines);
    assert_eq!(play_in(&SESSION, Mode::Trusting), lines);
    let mut table = usual();
    ask(&mut table, Request::Start(1, 2));
    ask(&mut table, Request::Deliver(1, 2, 5));
    ask(&mut table, Request::Deliver(2, 1, 6));
    let answer = ask(&mut table, Request::Deliver(1, 2, 7));
    assert_eq!(answer, Answer::Accepted(2, 1));
    assert_eq!(table[USED], 19);
}

#[test]
fn set_up_bounds_and_words_past_the_table() {
    let mut run = vec![7; words_for(16) + 3];
    for (n, mask, capacity) in [
        (1, 0, 16),
        (9, 0, 16),
        (2, 4, 16),
        (8, 256, 16),
        (2, 0, 15),
        (2, 0, 513),
        (2, 0, 17),
    ] {
        assert_eq!(set_up(&mut run, n, mask, capacity), refused(2));
        assert!(run.iter().all(|&word| word == 7));
    }
    assert_eq!(set_up(&mut run, 8, 255, 16), Answer::Ready(16));
    assert_eq!(run[words_for(16)..], [7, 7, 7]);
    assert!(well_formed(&run));
    assert!(!well_formed(&run[..words_for(16) - 1]));
}

#[test]
fn order_of_refusals() {
    let mut table = usual();
    let list = handle(&mut table, one(1));
    assert_eq!(ask(&mut table, Request::Encrypt(3, 99)), refused(5));
    assert_eq!(ask(&mut table, Request::Encrypt(3, list)), refused(6));
    assert_eq!(ask(&mut table, Request::Encrypt(list, 1)), refused(6));
    let mixed = Request::List(2, [3, 99, 0, 0]);
    assert_eq!(ask(&mut table, mixed), refused(5));
    assert_eq!(ask(&mut table, one(3)), refused(6));
    assert_eq!(ask(&mut table, one(0)), refused(5));
    let unused = Request::List(1, [1, 0, 0, 1]);
    assert_eq!(ask(&mut table, unused), refused(4));
    for count in [0, 5, u16::MAX] {
        assert_eq!(ask(&mut table, Request::List(count, [1; 4])), refused(4));
    }
    assert_eq!(ask(&mut table, Request::Project(99, 5)), refused(4));
    assert_eq!(ask(&mut table, Request::Project(1, 2)), refused(6));
    assert_eq!(ask(&mut table, Request::Deliver(1, 3, 99)), refused(3));
    assert_eq!(ask(&mut table, Request::Deliver(1, 2, 99)), refused(5));
    assert_eq!(ask(&mut table, Request::Deliver(1, 2, 1)), refused(6));
    let answer = ask(&mut table, Request::Deliver(1, 2, list));
    assert_eq!(answer, Answer::Dropped);
}

/// A list of the given handles, sealed for participant 1 and wrapped.
fn seal_for_1(table: &mut [u16], count: u16, handles: [u16; 4]) -> u16 {
    let list = handle(table, Request::List(count, handles));
    let text = handle(table, Request::Encrypt(1, list));
    handle(table, one(text))
}

#[test]
fn adversary_completes_a_run_in_its_own_name() {
    let mut table = usual();
    let name = handle(&mut table, Request::Store(3));
    let first = seal_for_1(&mut table, 2, [1, name, 0, 0]);
    let Answer::Sent(1, 3, reply) = ask(&mut table, Request::Deliver(3, 1, first)) else {
        panic!("the first message wasn't answered");
    };
    let text = handle(&mut table, Request::Project(reply, 1));
    let list = handle(&mut table, Request::Decrypt(3, text));
    let nonce = handle(&mut table, Request::Project(list, 2));
    assert_eq!(
        ask(&mut table, Request::Parse(nonce)),
        Answer::Parsed(2, 0, 8)
    );
    let third = seal_for_1(&mut table, 1, [nonce, 0, 0, 0]);
    let as_if_from = |sender| Request::Deliver(sender, 1, third);
    assert_eq!(ask(&mut table, as_if_from(2)), Answer::Dropped);
    assert_eq!(ask(&mut table, as_if_from(3)), Answer::Accepted(1, 3));
    let fourth = handle(&mut table, Request::Nonce);
    let second = seal_for_1(&mut table, 4, [nonce, 1, name, fourth]);
    let held = handles_of(&table, 1).len();
    let answer = ask(&mut table, Request::Deliver(3, 1, second));
    assert!(matches!(answer, Answer::Sent(1, 3, _)));
    let added = handles_of(&table, 1).len() - held;
    assert_eq!(added, 6, "outer, text and list of the message; three new");
}

#[test]
fn too_long_an_answer_comes_before_no_room() {
    for (wraps, capacity, expected) in [(0, 40, None), (1, 40, Some(9)), (1, 17, Some(9))] {
        let mut table = fresh(2, 1, capacity);
        let mut term = handle(&mut table, Request::Nonce);
        let nonce = term;
        let mut terms = Vec::new();
        for _ in 0..4 {
            term = handle(&mut table, Request::List(4, [term; 4]));
            terms.push(term);
        }
        let [a, b, c, d] = terms[..] else { panic!() };
        assert_eq!(ask(&mut table, Request::List(4, [d; 4])), refused(9));
        let big = handle(&mut table, Request::List(4, [d, c, c, c]));
        let mut x1 = handle(&mut table, Request::List(4, [big, b, a, nonce]));
        for _ in 0..wraps {
            x1 = handle(&mut table, one(x1));
        }
        let name = handle(&mut table, Request::Store(2));
        let message = seal_for_1(&mut table, 2, [x1, name, 0, 0]);
        let answer = ask(&mut table, Request::Deliver(2, 1, message));
        match expected {
            Some(number) => assert_eq!(answer, refused(number)),
            None => assert!(matches!(answer, Answer::Sent(1, 2, _))),
        }
    }
}

#[test]
fn doubled_handles_name_the_lowest_entry() {
    let mut table = usual();
    let a = handle(&mut table, Request::Store(7));
    let b = handle(&mut table, Request::Store(8));
    table[HEAD + 7 * ROW + HANDLES] = a;
    assert!(well_formed(&table));
    assert_eq!(ask(&mut table, Request::Parse(a)), Answer::Parsed(1, 7, 2));
    assert_eq!(ask(&mut table, Request::Parse(b)), refused(5));
    assert_eq!(handle(&mut table, Request::Store(8)), a);
}

#[test]
fn nonces_of_nobody_in_particular_are_well_formed() {
    let mut table = usual();
    ask(&mut table, Request::Nonce);
    let args = HEAD + 6 * ROW + ARGS;
    for (owner, partner, formed) in [(0, 3, true), (3, 0, true), (2, 2, true), (1, 4, false)] {
        table[args] = owner;
        table[args + 1] = partner;
        assert_eq!(well_formed(&table), formed);
    }
}

#[test]
fn player_stops_where_it_must() {
    assert_eq!(play(&[]), b"0 refused 11\n");
    assert_eq!(play(&[1]), b"");
    assert_eq!(play(&[1, 0]), b"1 refused 11\n");
    assert_eq!(play(&[1, 0, 0]), b"1 refused 11\n");
    assert_eq!(play(&[1, 0, 1, 4]), b"1 refused 11\n");
    let twice = [&SESSION[..10], &SESSION[1..10]].concat();
    assert_eq!(play(&twice), b"1 ready 6\n2 refused 11\n");
    let refused_first = [1, 0, 7, 0, 0, 3, 0, 8, 0, 64, 0, 1, 4, 0, 1, 4];
    assert_eq!(
        play(&refused_first),
        b"1 refused 2\n2 refused 1\n3 refused 1\n"
    );
    let mut long = vec![1, 0, 7, 0, 0, 3, 0, 3, 0, 16];
    while long.len() < 65_536 {
        long.extend_from_slice(&[0, 1, 4]);
    }
    assert_eq!(long.len(), 65_536);
    assert!(play(&long).ends_with(b"\n21843 refused 10\n"));
    long.push(0);
    assert_eq!(play(&long), b"0 refused 11\n");
}

#[test]
fn call_for_the_c_host() {
    let lines = play(&SESSION);
    for extra in [0, 5] {
        let mut out = vec![9; lines.len() + extra];
        assert_eq!(play_call(&SESSION, &mut out) as usize, lines.len());
        assert_eq!(out[..lines.len()], lines);
        assert!(out[lines.len()..].iter().all(|&byte| byte == 9));
    }
    let mut out = vec![9; lines.len() - 1];
    assert_eq!(play_call(&SESSION, &mut out), u32::MAX);
    assert!(out.iter().all(|&byte| byte == 0));
    let mut out = vec![9; lines.len()];
    let written = play_call_in(&SESSION, &mut out, Mode::Trusting);
    assert_eq!((written as usize, out), (lines.len(), lines));
}

#[test]
fn records_read_and_write() {
    let list = Record::Request(Request::List(2, [258, 3, 0, 0]));
    let bytes = [0, 5, 5, 1, 2, 0, 3];
    let mut out = [9; 8];
    assert_eq!(write_record(list, &mut out), Written::Bytes(7));
    assert_eq!(out, [0, 5, 5, 1, 2, 0, 3, 9]);
    assert_eq!(read_record(&bytes, 0), Read::Record(list, 7));
    assert_eq!(read_record(&bytes, 7), Read::End);
    assert_eq!(read_record(&bytes, 8), Read::End);
    assert_eq!(read_record(&bytes[..6], 0), Read::Malformed);
    let mut short = [9; 6];
    assert_eq!(write_record(list, &mut short), Written::Refused(12));
    let bad = Record::Request(Request::List(1, [1, 1, 0, 0]));
    assert_eq!(write_record(bad, &mut short), Written::Refused(11));
    assert_eq!(short, [9; 6]);
}

#[test]
fn single_records() {
    let mut table = vec![5; words_for(16)];
    let before = table.clone();
    let mut answer = [9; 5];
    let set_up = &SESSION[1..10];
    assert_eq!(single(&mut table, &SESSION, &mut answer), 11);
    assert_eq!(single(&mut table, set_up, &mut answer[..3]), 12);
    assert_eq!(single(&mut table, &set_up[1..], &mut answer[..3]), 11);
    assert_eq!((&table, answer), (&before, [9; 5]));
    assert_eq!(single(&mut table, set_up, &mut answer), 0);
    assert_eq!(answer, [7, 2, 0, 0, 9]);
    assert_eq!(single(&mut table, &[0, 1, 4], &mut answer), 0);
    assert_eq!(answer, [7, 1, 0, 0, 9]);
    assert_eq!(table, before);
}

#[test]
fn no_run_and_no_request_panics() {
    let mut random = cases::Random::new(11);
    for round in 0..20_000 {
        let words = random.below(90);
        let mut run: Vec<u16> = (0..words)
            .map(|_| match round % 3 {
                0 => random.word(),
                1 => random.between(0, 9),
                _ => *random.pick(&[0, 1, 2, 3, 4, 5, 6, 16, u16::MAX]),
            })
            .collect();
        let number = random.between(0, 9);
        for request in [
            Request::Start(number, 1),
            Request::Deliver(1, number, 1),
            Request::Deliver(2, 1, number),
            Request::Store(number),
            Request::Nonce,
            Request::List(number, [number, 1, 0, 0]),
            Request::Project(number, 1),
            Request::Encrypt(number, 1),
            Request::Decrypt(1, number),
            Request::Parse(number),
        ] {
            act(&mut run, request);
            step(&mut run, request);
        }
    }
}

#[test]
fn generated_sessions_meet_every_answer_and_refusal() {
    let mut tally = cases::Tally::default();
    let text = cases::generate("sessions", 1, 300, &mut tally).expect("a known kind");
    assert_eq!(text.matches("\nend\n").count(), 300);
    for word in ["ready", "sent", "accepted", "dropped", "handle", "parsed"] {
        assert!(tally.count(word) > 0, "{word}");
    }
    for number in 1..=10 {
        let label = format!("refused {number}");
        assert!(tally.count(&label) > 0, "{label}");
    }
}
