//! The search by halves: the counts of the printed rows and the independent board's search against a second reading of the rule, and
//! the rows found against a scan of the whole table.

use board_tests::model::fault::Sound;
use board_tests::model::table::{search, KEYS};
use board_tests::plain::lines;
use std::collections::BTreeSet;

type Key = (u16, u8);

/// The row or the code for what is absent, and the number of rows looked at.
type Found = (Result<usize, u32>, usize);

/// The page that quotes what is counted here.
const TESTS_PAGE: &str = include_str!("../../docs/TESTS.md");

const NO_INDEX: u32 = 0x0602_0000;
const NO_SUBINDEX: u32 = 0x0609_0011;

fn table() -> Vec<Key> {
    lines().iter().map(|line| (line.index, line.sub)).collect()
}

/// What reading the whole table from the top finds.
fn scan(table: &[Key], key: Key) -> Result<usize, u32> {
    let absent = if table.iter().any(|row| row.0 == key.0) { NO_SUBINDEX } else { NO_INDEX };
    table.iter().position(|&row| row == key).ok_or(absent)
}

/// The rows that the rule looks at, in their order.
fn looked_at(table: &[Key], key: Key) -> Vec<usize> {
    let mut left = 0..table.len();
    let mut looked = Vec::new();
    while !left.is_empty() {
        let middle = left.start + (left.end - left.start) / 2;
        looked.push(middle);
        if table[middle] == key {
            break;
        }
        left = if table[middle] < key { middle + 1..left.end } else { left.start..middle };
    }
    looked
}

fn right(table: &[Key], key: Key) -> Found {
    (scan(table, key), looked_at(table, key).len())
}

/// The independent board's search; its table has keys in one number.
fn independent(keys: &[u32], (index, sub): Key) -> Found {
    let (found, looks) = search(Sound, keys, (index as u32) << 8 | sub as u32);
    (found, looks as usize)
}

/// The bound for a number of rows.
fn binary_digits(n: usize) -> usize {
    (usize::BITS - n.leading_zeros()) as usize
}

/// Every key of an index of the table or next to one, and some of every index.
fn asked(table: &[Key]) -> BTreeSet<Key> {
    let near = table.iter().flat_map(|row| [row.0.wrapping_sub(1), row.0, row.0.wrapping_add(1)]);
    let every = (0..=0xFFFF).flat_map(|index| [0, 1, 0x11, 0xFF].map(|sub| (index, sub)));
    near.flat_map(|index| (0..=0xFF).map(move |sub| (index, sub))).chain(every).collect()
}

#[test]
fn the_printed_counts() {
    let table = table();
    let counts: Vec<usize> = table.iter().map(|&key| looked_at(&table, key).len()).collect();
    let expected: Vec<String> = counts.iter().map(usize::to_string).collect();
    let printed: Vec<&str> =
        include_str!("../../crates/rows/stdout").lines().map(|line| line.rsplit_once(' ').unwrap().1).collect();
    assert_eq!(printed, expected);
    let (rows, greatest, sum) = (counts.len(), counts.iter().max().unwrap(), counts.iter().sum::<usize>());
    let mean = format!("{:.2}", sum as f64 / rows as f64);
    println!("{rows} rows: greatest {greatest} looks, mean {mean}");
    assert!(TESTS_PAGE.contains(&format!("greatest {greatest}, mean {mean}")));
    let looks = format!("at most {greatest} rows are looked at, {mean} in the mean ({sum} looks for {rows} rows");
    assert!(include_str!("../../docs/PERFORMANCE.md").contains(&looks));
}

#[test]
fn the_independent_search() {
    let table = table();
    let asked = asked(&table);
    let mut most = 0;
    for &key in &asked {
        let found = independent(&KEYS, key);
        assert_eq!(found, right(&table, key), "{key:X?}");
        most = most.max(found.1);
    }
    assert_eq!(most, binary_digits(table.len()));
    let count = format!("{},{:03}", asked.len() / 1000, asked.len() % 1000);
    println!("{count} keys: at most {most} looks");
    assert!(TESTS_PAGE.contains(&count));
}

/// Tables of 0 to 512 rows, three to an index, with gaps before, between and behind. Each needs as many looks as its number of rows has
/// binary digits: 9 up to 511 rows, and 10 for the next.
#[test]
fn tables_of_every_size() {
    let all: Vec<Key> = (0..=512).map(|n| (0x1001 + n / 3 * 2, 1 + (n % 3) as u8 * 2)).collect();
    let mut most = Vec::new();
    for size in 0..all.len() {
        let table = &all[..size];
        let keys: Vec<u32> = table.iter().map(|&(index, sub)| index as u32 * 256 + sub as u32).collect();
        // the first row that the table has not is asked for too
        let near = all[..=size].iter().flat_map(|&(i, s)| [(i - 1, s), (i, s - 1), (i, s), (i, s + 1), (i + 1, s)]);
        let counts = near.map(|key| {
            let found = independent(&keys, key);
            assert_eq!(found, right(table, key), "{size} rows, {key:X?}");
            found.1
        });
        most.push(counts.max().unwrap());
        assert_eq!(most[size], binary_digits(size), "{size} rows");
    }
    println!("511 rows: at most {} looks, 512 rows: {}", most[511], most[512]);
}

#[derive(Clone, Copy, PartialEq, Debug)]
enum Wrong {
    Nothing,
    HitUncounted,
    Third,
    KeepsMiddle,
    HighInside,
    LastRowOutside,
    GoesOn,
    LooksBeside,
    ToldBeside,
    Forgets,
}

use Wrong::*;

const WRONG: [(Wrong, &str); 9] = [
    (HitUncounted, "the look that finds the row is not counted"),
    (Third, "the rows left are parted at a third"),
    (KeepsMiddle, "the row looked at stays among the rows left"),
    (HighInside, "the middle is worked out with high inside the rows left"),
    (LastRowOutside, "the table's last row is never looked at"),
    (GoesOn, "the search goes on when the row is found"),
    (LooksBeside, "an absent key takes one look more, at the row where the search ended"),
    (ToldBeside, "the row where the search ended tells what is absent, uncounted and alone"),
    (Forgets, "that a row has the index is forgotten"),
];

/// The search with one thing wrong, given up after 99 looks.
fn wrong(how: Wrong, table: &[Key], key: Key) -> Found {
    let mut left = 0..table.len() - (how == LastRowOutside) as usize;
    let (mut looks, mut found, mut seen) = (0, None, false);
    while !left.is_empty() && looks < 99 {
        let middle = left.start
            + match how {
                Third => left.len() / 3,
                HighInside => (left.len() - 1) / 2,
                _ => left.len() / 2,
            };
        let row = table[middle];
        looks += 1;
        seen |= row.0 == key.0;
        if row == key {
            found = Some(middle);
            if how != GoesOn {
                break;
            }
        }
        left = if row < key { middle + (how != KeepsMiddle) as usize..left.end } else { left.start..middle };
    }
    let beside = table.get(left.start).is_some_and(|row| row.0 == key.0);
    match how {
        HitUncounted => looks -= found.is_some() as usize,
        LooksBeside => looks += found.is_none() as usize,
        ToldBeside => seen = beside,
        Forgets => seen = false,
        _ => (),
    }
    (found.ok_or(if seen { NO_SUBINDEX } else { NO_INDEX }), looks)
}

/// The comparison can fail: each wrong search differs on some key, and without its fault on none.
#[test]
fn wrong_searches_are_found() {
    let table = table();
    let asked = asked(&table);
    let differing = |how| asked.iter().filter(|&&key| wrong(how, &table, key) != right(&table, key)).count();
    assert_eq!(differing(Nothing), 0);
    for (how, text) in WRONG {
        let keys = differing(how);
        println!("differs on {keys:6} keys  {how:?}: {text}");
        assert!(keys > 0, "not found: {how:?}");
    }
}
