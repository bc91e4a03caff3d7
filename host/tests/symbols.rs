//! Run lists: what is written, what is read, what is refused, and that no two lists tell one block.

#[path = "../against/blocks.rs"]
mod blocks;
#[path = "../against/scan.rs"]
mod scan;

use blocks::Random;
use galemosu::{read_symbols, write_symbols, Refusal, Symbol};
use scan::scan;

/// The symbols of a block's levels in scan order, worked out here.
fn listed(block: &[i16], log2: usize) -> Vec<u32> {
    let levels: Vec<i16> = scan(1 << log2).into_iter().map(|place| block[place]).collect();
    let places: Vec<usize> = (0..levels.len()).filter(|p| levels[*p] != 0).collect();
    let one = |(k, p): (usize, &usize)| {
        let run = p - if k == 0 { 0 } else { places[k - 1] + 1 };
        let (level, last) = (i64::from(levels[*p]), k + 1 == places.len());
        run as u32 + 1024 * level.unsigned_abs() as u32 + if level < 0 { 1 << 25 } else { 0 } + ((last as u32) << 26)
    };
    places.iter().enumerate().map(one).collect()
}

/// A block of a side with one of so many levels other than 0, and a surplus that has anything.
fn block(random: &mut Random, log2: usize, one_of: u64) -> Vec<i16> {
    let mut level = || match random.below(one_of) {
        0 => random.between(-32767, 32767) as i16,
        _ => 0,
    };
    let mut block: Vec<i16> = (0..1 << (2 * log2)).map(|_| level()).collect();
    block.extend([-32768, 5, 0]);
    block
}

#[test]
fn what_is_written_is_listed_and_reads_back() {
    let mut random = Random::new(26_111_601);
    for turn in 0..4000 {
        let log2 = 1 + turn % 5;
        let n = 1 << (2 * log2);
        let one_of = random.one(&[1, 2, 5, 40, 2000]);
        let block = block(&mut random, log2, one_of);
        let right = listed(&block, log2);
        for surplus in [0, 1, 40] {
            let held: Vec<u32> = (0..right.len() + surplus).map(|_| random.next() as u32).collect();
            let mut list = held.clone();
            assert_eq!(write_symbols(&block, log2, &mut list), Ok(&right[..]));
            assert_eq!(list[right.len()..], held[right.len()..]);
        }
        let mut back: Vec<i16> = (0..n + 3).map(|_| random.next() as i16).collect();
        let behind = back[n..].to_vec();
        assert_eq!(read_symbols(&right, &mut back, log2), Ok(()));
        assert_eq!((&back[..n], &back[n..]), (&block[..n], &behind[..]));
        if !right.is_empty() {
            let held = vec![7; right.len() - 1];
            let mut list = held.clone();
            assert_eq!(write_symbols(&block, log2, &mut list), Err(Refusal::Room));
            assert_eq!(list, held);
        }
    }
}

#[test]
fn the_largest_runs_and_the_largest_levels() {
    for log2 in 1..=5 {
        let n = 1 << (2 * log2);
        for level in [1, -1, 32767, -32767] {
            for place in [0, n / 2, n - 1] {
                let mut block = vec![0; n];
                block[scan(1 << log2)[place]] = level;
                let right = [Symbol::new(place as u16, level, true).unwrap().into()];
                let mut list = [0; 1];
                assert_eq!(write_symbols(&block, log2, &mut list), Ok(&right[..]));
                let mut back = vec![9; n];
                assert_eq!(read_symbols(&right, &mut back, log2), Ok(()));
                assert_eq!(back, block);
            }
        }
        // a symbol for every place
        let (block, mut list) = (vec![-32767; n], vec![0; n]);
        let symbols = write_symbols(&block, log2, &mut list).unwrap();
        assert!(symbols[..n - 1].iter().all(|s| *s == u32::from(Symbol::new(0, -32767, false).unwrap())));
        let mut back = vec![0; n];
        assert_eq!(read_symbols(symbols, &mut back, log2), Ok(()));
        assert_eq!(back, block);
    }
}

#[test]
fn the_empty_block_has_the_empty_list() {
    for log2 in 1..=5 {
        let n = 1 << (2 * log2);
        assert_eq!(write_symbols(&vec![0; n], log2, &mut []), Ok(&[][..]));
        let mut list = [3, 4];
        assert_eq!(write_symbols(&vec![0; n], log2, &mut list), Ok(&[][..]));
        assert_eq!(list, [3, 4]);
        let mut block = vec![7; n + 1];
        assert_eq!(read_symbols(&[], &mut block, log2), Ok(()));
        assert!(block[..n].iter().all(|level| *level == 0) && block[n] == 7);
    }
}

#[test]
fn the_writer_refuses_in_order() {
    let low = [1, 2, 3, -32768];
    let mut list = [5, 6];
    for side in [0, 6, 64, usize::MAX] {
        assert_eq!(write_symbols(&low[..1], side, &mut list), Err(Refusal::Side));
    }
    for side in 2..=5 {
        assert_eq!(write_symbols(&low, side, &mut list), Err(Refusal::Length));
    }
    assert_eq!(write_symbols(&low[1..], 1, &mut list), Err(Refusal::Length));
    assert_eq!(write_symbols(&[], 1, &mut list), Err(Refusal::Length));
    assert_eq!(write_symbols(&low, 1, &mut list), Err(Refusal::Sample));
    assert_eq!(write_symbols(&[1, 2, 3, 0], 1, &mut list), Err(Refusal::Room));
    assert_eq!(write_symbols(&[0, 0, 3, 0], 1, &mut []), Err(Refusal::Room));
    assert_eq!(list, [5, 6]);
    // behind the block it is not looked at
    assert!(write_symbols(&[1, 2, 0, 0, -32768], 1, &mut list).is_ok());
}

#[test]
fn the_reader_refuses_in_order() {
    const LAST: u32 = 1 << 26;
    let wrong = [1024 | LAST | 1 << 31];
    let held = [5, 6, 7, 8];
    let mut block = held;
    for side in [0, 6, 64, usize::MAX] {
        assert_eq!(read_symbols(&wrong, &mut block[..1], side), Err(Refusal::Side));
    }
    for side in 2..=5 {
        assert_eq!(read_symbols(&wrong, &mut block, side), Err(Refusal::Length));
    }
    assert_eq!(read_symbols(&wrong, &mut block[1..], 1), Err(Refusal::Length));
    assert_eq!(read_symbols(&[], &mut [], 1), Err(Refusal::Length));
    // each fault alone, in the last symbol and before it
    let one = 1024;
    let mut lists: Vec<Vec<u32>> = vec![
        vec![LAST],                             // a magnitude of 0
        vec![1 << 25, one | LAST],              // the same with a sign
        vec![one, one + 3 + LAST],              // past the block
        vec![one + 4 + LAST],                   // past it at once
        vec![one + 1023, one | LAST],           // far past it
        vec![one],                              // no last mark
        vec![one, one, one, one],               // none on any
        vec![one | LAST, one | LAST],           // a symbol behind it
        vec![one | LAST, one],                  // one without a mark
        vec![one, one, one, one, one | LAST],   // more symbols than places
        vec![one + 3 + LAST, one + LAST, LAST], // several at once
    ];
    for bit in 27..32 {
        lists.push(vec![one | LAST | 1 << bit]);
        lists.push(vec![one | 1 << bit, one | LAST]);
    }
    for list in &lists {
        assert_eq!(read_symbols(list, &mut block, 1), Err(Refusal::Symbol), "{list:?}");
    }
    assert_eq!(block, held);
}

/// All lists of up to three symbols of these fields: those that are read are what is written of their blocks, and as
/// many as there are blocks of 2×2 with up to three levels of magnitude 1 or 2.
#[test]
fn every_accepted_list_is_its_block_s() {
    let mut symbols = Vec::new();
    for run in 0..5 {
        for magnitude in 0..3 {
            symbols.extend((0..8).map(|marks| run | magnitude << 10 | marks << 25));
        }
    }
    let (mut lists, mut accepted, mut room) = (vec![vec![]], 0, [0; 4]);
    for length in 0..=3 {
        for list in &lists {
            let mut block = [9; 4];
            match read_symbols(list, &mut block, 1) {
                Ok(()) => {
                    assert_eq!(write_symbols(&block, 1, &mut room), Ok(&list[..]));
                    accepted += 1;
                }
                Err(refusal) => assert_eq!((refusal, block), (Refusal::Symbol, [9; 4])),
            }
        }
        if length < 3 {
            let longer = |list: &Vec<u32>| symbols.iter().map(|s| [&list[..], &[*s]].concat()).collect::<Vec<_>>();
            lists = lists.iter().flat_map(longer).collect();
        }
    }
    assert_eq!(accepted, 1 + 4 * 4 + 6 * 16 + 4 * 64);
}

#[test]
fn a_symbol_by_its_fields() {
    for run in [0, 1, 511, 1023] {
        for level in [1, -1, 2, -300, 32767, -32767] {
            for last in [false, true] {
                let symbol = Symbol::new(run, level, last).unwrap();
                assert_eq!((symbol.run(), symbol.level(), symbol.is_last()), (run, level, last));
                assert_eq!((symbol.magnitude(), symbol.is_negative()), (level.unsigned_abs(), level < 0));
                assert_eq!(Symbol::try_from(u32::from(symbol)), Ok(symbol));
                assert!((27..32).all(|bit| Symbol::try_from(u32::from(symbol) | 1 << bit) == Err(Refusal::Symbol)));
            }
        }
    }
    for (run, level) in [(1024, 1), (u16::MAX, 1), (0, 0), (5, -32768)] {
        assert_eq!(Symbol::new(run, level, true), Err(Refusal::Symbol));
    }
    for nothing in [0, 1023, 1 << 25, 3 << 25, 1023 | 3 << 25] {
        assert_eq!(Symbol::try_from(nothing), Err(Refusal::Symbol));
    }
    let symbol = Symbol::new(3, -2, true).unwrap();
    assert_eq!(u32::from(symbol), 3 + 2 * 1024 + (1 << 25) + (1 << 26));
    assert_eq!(format!("{symbol:?}"), "Symbol { run: 3, level: -2, last: true }");
}

/// The header's macros have the fields where `Symbol` has them.
#[test]
fn the_header_has_the_same_fields() {
    let header = include_str!("../include/galemosu.h");
    let most = Symbol::new(Symbol::MOST_RUN, 32767, false).unwrap();
    assert_eq!(u32::from(most), 1023 | 32767 << 10);
    let (negative, last) = (Symbol::new(0, -1, false).unwrap(), Symbol::new(0, 1, true).unwrap());
    assert_eq!((u32::from(negative) >> 25, u32::from(last) >> 26), (1, 1));
    for line in [
        "RUN(symbol) ((symbol) & 1023u)",
        "MAGNITUDE(symbol) ((symbol) >> 10 & 32767u)",
        "NEGATIVE(symbol) ((symbol) >> 25 & 1u)",
        "LAST(symbol) ((symbol) >> 26 & 1u)",
    ] {
        assert!(header.contains(&format!("#define GALEMOSU_SYMBOL_{line}\n")), "{line}");
    }
}
