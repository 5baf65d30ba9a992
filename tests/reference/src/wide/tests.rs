//! Tests of the wide comparison itself: it finds nothing in the reference,
//! it meets all that it should, and it finds and shrinks faults.

use super::*;

const WISH: Wish = Wish {
    count: 60_000,
    seed: 1,
    first: 0,
};

fn found(fault: Fault) -> Failure {
    let mut reference = Reference;
    let mut wrong = Wrong(&mut reference, fault);
    compare(&mut wrong, WISH, &mut Counts::default()).expect("a fault is found")
}

#[test]
fn the_reference_agrees_with_itself_and_meets_every_answer() {
    let mut counts = Counts::default();
    assert!(compare(&mut Reference, WISH, &mut counts).is_none());
    assert_eq!(counts.missing(), Vec::<String>::new());
}

#[test]
fn the_same_seed_gives_the_same_cases() {
    let texts: Vec<String> = (0..2)
        .map(|_| {
            let mut counts = Counts::default();
            compare(
                &mut Reference,
                Wish {
                    count: 3_000,
                    ..WISH
                },
                &mut counts,
            );
            counts.tally.to_string()
        })
        .collect();
    assert_eq!(texts[0], texts[1]);
}

#[test]
fn faults_are_found_and_made_small() {
    for (name, fault) in FAULTS {
        let failure = found(fault);
        match failure.case {
            Case::Session(bytes, _) => assert!(bytes.len() < 160, "{name}\n{}", failure.text),
            Case::Single(_, table, _) => assert!(table.len() <= 288, "{name}\n{}", failure.text),
        }
    }
}

#[test]
fn requests_to_the_writer_meet_every_answer() {
    let mut tally = crate::cases::Tally::default();
    let mut random = Random::new(1);
    for _ in 0..5_000 {
        writer::count(&writer::request(&mut random), &mut tally);
    }
    for kind in 0..=9 {
        for how in [
            "written, just fits",
            "written, bytes to spare",
            "refused 12",
        ] {
            assert!(
                tally.count(&format!("writer, kind {kind}: {how}")) > 0,
                "{kind} {how}"
            );
        }
    }
    assert!(tally.count("writer, kind 5: refused 11") > 0);
}

#[test]
fn a_greatest_file_is_met_with_every_answer_of_its_size() {
    let mut random = Random::new(3);
    let records = vec![vec![0, 7, 0, 0, 3, 0, 3, 0, 64], vec![0, 1, 4]];
    let sizes: Vec<usize> = (0..200)
        .map(|_| damage::near_greatest(&records, &mut random).0.len())
        .collect();
    for size in 65_533..=65_539 {
        assert!(sizes.contains(&size), "{size}");
    }
}
