//! Refusals through the safe functions: their numbers, and numbers of any size without a panic.
use chhayublo::bundle::{self, Entry};
use chhayublo::{contradiction, invert, reduce, row_view, solve, Refusal, Room};

const SIZES: [usize; 9] = [0, 1, 2, 64, 512, 513, 1024, 1025, usize::MAX];

#[test]
fn numbers_of_any_size_are_refused_not_feared() {
    let mut room = Room::new();
    for rows in SIZES {
        for columns in SIZES {
            for k in [0, 1, 8, 9, usize::MAX] {
                let refused = reduce(&mut [0; 3], rows, columns, k, &mut room).is_err();
                assert!(refused, "three words for {rows} rows of {columns} columns");
                assert!(invert(&[0; 3], rows, columns, k, &mut room).is_err());
                for n in SIZES {
                    assert!(solve(&mut [0; 3], rows, columns, n, k, &mut room).is_err());
                    assert!(contradiction(&[0; 3], rows, columns, n, k, &mut room).is_err());
                }
                assert_eq!(row_view(&[0; 3], rows, columns, k), None);
            }
        }
    }
}

#[test]
fn the_room_is_never_too_short() {
    let mut room = Room::new();
    for k in 1..=8 {
        for size in [1, 2, 63, 64, 65, 300, 512] {
            let width = chhayublo::words(size);
            let unit = |row: usize| (0..width).map(move |w| if row / 64 == w { 1 << (row % 64) } else { 0 });
            let mut identity: Vec<u64> = (0..size).flat_map(unit).collect();
            assert_eq!(invert(&identity, size, size, k, &mut room), Ok(identity.clone()));
            assert_eq!(reduce(&mut identity, size, size, k, &mut room).map(|reduced| reduced.rank), Ok(size));
        }
    }
    assert_eq!(contradiction(&vec![0; 512 * 8], 512, 512, 1, 8, &mut room), Ok(None));
    assert!(solve(&mut vec![0; 512 * 16], 512, 1024, 1023, 8, &mut room).is_ok());
}

#[test]
fn refusals_have_their_numbers() {
    let mut room = Room::new();
    let numbers = [
        reduce(&mut [], 513, 1, 1, &mut room).unwrap_err(),
        reduce(&mut [], 0, 1025, 1, &mut room).unwrap_err(),
        reduce(&mut [], 0, 1, 9, &mut room).unwrap_err(),
        reduce(&mut [], 1, 1, 1, &mut room).unwrap_err(),
        reduce(&mut [2], 1, 1, 1, &mut room).unwrap_err(),
        solve(&mut [], 0, 3, 3, 1, &mut room).unwrap_err(),
        invert(&[], 0, 1, 1, &mut room).unwrap_err(),
        contradiction(&[], 512, 513, 1, 1, &mut room).unwrap_err(),
    ];
    assert_eq!(numbers.map(Refusal::number), [1, 2, 3, 4, 5, 7, 8, 11]);
    let one = Entry { kind: 1, rows: 1, columns: 1 };
    let bytes = bundle::write(&[one], &[1]).unwrap();
    let numbers = [
        bundle::entry(&bytes, 1).unwrap_err(),
        bundle::count(&bytes[..1]).unwrap_err(),
        bundle::write(&[], &[]).unwrap_err(),
        bundle::count(&bytes[..5]).unwrap_err(),
        bundle::write(&[Entry { kind: 3, ..one }], &[1]).unwrap_err(),
        bundle::write(&[Entry { columns: 0, ..one }], &[1]).unwrap_err(),
        bundle::count(&bytes[..19]).unwrap_err(),
        bundle::write(&[Entry { kind: 1, rows: 512, columns: 1024 }], &vec![0; 8192]).unwrap_err(),
    ];
    assert_eq!(numbers.map(Refusal::number), [12, 20, 21, 22, 23, 24, 26, 29]);
    assert_eq!(Refusal::Contradictory.to_string(), "refused 10: no image meets all packets");
}

#[test]
fn a_room_tells_its_words() {
    let mut room = Room::new();
    assert_eq!(format!("{room:?}"), "Room { words: 0 }");
    reduce(&mut [1], 1, 1, 3, &mut room).unwrap();
    assert_eq!(format!("{room:?}"), "Room { words: 8 }");
}
