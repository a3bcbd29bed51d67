//! Request No. 13: the checker and the proposer of the witness on examples, and on every proposal of tiny trays.

use second::pay::{check, propose, run, Row};

fn rows(pairs: &[(u64, u64)]) -> Vec<Row> {
    pairs.iter().map(|(worth, count)| Row { worth: *worth, count: *count }).collect()
}

#[test]
fn accepts_exactly_and_lowers() {
    let tray = rows(&[(5, 3), (5, 1), (1, 4)]);
    assert_eq!(check(&tray, &[11, 0], &[1, 1, 1, 0, 0, 0]), (0, rows(&[(5, 2), (5, 0), (1, 3)])));
    assert_eq!(
        check(&tray, &[10], &[0, 2, 0]),
        (16, tray.clone()),
        "the second row holds one: equal worths count apart"
    );
    assert_eq!(check(&tray, &[10], &[2, 0, 1]), (16, tray.clone()), "overpaying");
    assert_eq!(check(&tray, &[10], &[2, 0]), (2, tray.clone()), "wrong length");
    assert_eq!(check(&tray, &[0; 11], &[0; 33]), (2, tray.clone()), "eleven sittings");
    assert_eq!(check(&rows(&[(0, 1)]), &[0], &[0]).0, 2);
    assert_eq!(check(&rows(&[(100_001, 1)]), &[0], &[0]).0, 2);
    assert_eq!(check(&rows(&[(1, 10_001)]), &[0], &[0]).0, 2);
    assert_eq!(check(&rows(&[(1, 1); 17]), &[], &[]).0, 2);
}

#[test]
fn greatest_worth_first_earlier_row_first() {
    assert_eq!(
        propose(&rows(&[(5, 1), (25, 1), (5, 9), (1, 9)]), &[36, 5]),
        Some(vec![1, 1, 1, 1, 0, 0, 1, 0])
    );
    assert_eq!(propose(&rows(&[(4, 5), (3, 5)]), &[6]), None, "another payment exists");
    assert_eq!(check(&rows(&[(4, 5), (3, 5)]), &[6], &[0, 2]).0, 0);
}

/// Of all proposals of tiny trays, those that are accepted are those that a search over amounts finds; and what is proposed is among them.
#[test]
fn every_proposal_of_tiny_trays() {
    for (a, b) in [(1, 1), (1, 2), (2, 3), (3, 3)] {
        for (m, n) in [(0, 2), (1, 1), (2, 2)] {
            let tray = rows(&[(a, m), (b, n)]);
            for paid in 0..8 {
                let accepted: Vec<(u64, u64)> = (0..4)
                    .flat_map(|x| (0..4).map(move |y| (x, y)))
                    .filter(|(x, y)| check(&tray, &[paid], &[*x, *y]).0 == 0)
                    .collect();
                let wanted: Vec<(u64, u64)> = (0..=m)
                    .flat_map(|x| (0..=n).map(move |y| (x, y)))
                    .filter(|(x, y)| a * x + b * y == paid)
                    .collect();
                assert_eq!(accepted, wanted);
                if let Some(p) = propose(&tray, &[paid]) {
                    assert!(wanted.contains(&(p[0], p[1])));
                }
            }
        }
    }
}

#[test]
fn odd_input() {
    let tray = "rows=1\nworth=2\ncount=3\n";
    let end = "rows=1\nworth=2\ncount=3\n";
    assert_eq!(run(b"", false), "code=2\n");
    assert_eq!(
        run(b"rows=1\nworth=2\ncount=3", false),
        "code=2\n",
        "bytes behind the last LF of a tray are a fault"
    );
    assert_eq!(run(format!("{tray}unclaimed=0\n").as_bytes(), false), format!("code=0\n{end}"));
    assert_eq!(
        run(format!("{tray}paid=2\nsitting=1\nunclaimed=0\n").as_bytes(), false),
        format!("code=2\n{end}")
    );
    assert_eq!(
        run(format!("{tray}sitting=1\npaid=02\nunclaimed=0\n").as_bytes(), false),
        format!("code=2\n{end}")
    );
    assert_eq!(
        run(format!("{tray}sitting=1\npaid=2\nunclaimed=0\ngive=1\n\n").as_bytes(), true),
        "code=0\nrows=1\nworth=2\ncount=2\n"
    );
    assert_eq!(
        run(format!("{tray}sitting=1\npaid=2\nunclaimed=0\ngive=1\ngive=0\n").as_bytes(), true),
        format!("code=2\n{end}")
    );
    assert_eq!(
        run(format!("{tray}sitting=1\npaid=2\nunclaimed=0\ngive=x\n").as_bytes(), true),
        format!("code=2\n{end}")
    );
}
