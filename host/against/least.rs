//! The second mode, for which there is no Rust, against the cheapest block of all, found here in two ways that share
//! nothing with the library: `listed` tries all blocks of allowed magnitudes, where they are few; `forwards` takes a
//! block of any size. What levels cost is document 01's (paper.rs). An accepted block must be that one, its price the
//! document's and never above the walk's, the surplus untouched; a refused call must be refused as the walk's call is,
//! and left as it was.

use crate::blocks::Random;
use crate::calls::{self, Quantise, SubBlock, COMPONENTS};
use crate::fault_of;
use crate::order::{self, Fault};
use crate::paper::Block;
use crate::scan::scan;
use crate::tally::Tally;
use galemosu::{Coded, Component, Costs, Mode, Settings};

const ALL: &[usize] = &[0, 1, 2];

/// As many blocks are listed at most: five places of three magnitudes.
const MOST_LISTED: usize = 243;

/// The grid's 2×2 blocks, then this many accepted calls and more: blocks of a few coefficients, blocks at equal prices,
/// and calls of any kind.
pub fn compare(accepted: u64) -> Tally {
    let refusals = [(1, &[0][..]), (2, ALL), (3, ALL), (4, &[0]), (5, &[0]), (6, ALL), (7, ALL), (8, ALL), (9, ALL)];
    let kinds = [
        ("sides", 5),
        ("pairs of QP and component", 192),
        ("pairs of flags", 4),
        ("of skipped, emptied and coded", 3),
        ("luma sides", 4),
        ("run masks", 8),
        ("of the walk's block, one of its price and a cheaper one", 3),
        ("of listed blocks with one and with several of least price", 2),
    ];
    let mut tally = Tally::new("least", &refusals, &kinds);
    tally.beside = "held against the cheapest block";
    let mut random = Random::new(9_052_026);
    grid(&mut tally, &mut random);
    let whole = tally.both + accepted;
    let mut turn = 0;
    while tally.wants(whole) {
        // small sides more often: they are quick, and they meet more ties
        let (component, side) = (COMPONENTS[turn % 3], random.one(&[1, 1, 1, 2, 2, 2, 3, 3, 4, 5]));
        let faulty = random.below(4) == 0;
        match turn / 3 % 8 {
            0 => one(&mut tally, &few(&mut random, component)),
            1 | 2 => one(&mut tally, &tied(&mut random, side, component)),
            3..=5 => one(&mut tally, &calls::quantise(&mut random, side, turn as u32 / 24 % 64, component, faulty)),
            _ => {
                let luma = [2, 2, 3, 2, 3, 4, 2, 5][turn / 24 % 8];
                three(&mut tally, &calls::sub_block(&mut random, luma, mask(turn), faulty));
            }
        }
        turn += 1;
    }
    tally
}

/// Every mask in turn, with bits that mean nothing now and then.
fn mask(turn: usize) -> u32 {
    (turn / 24) as u32 % 8 | if turn % 2 == 0 { 0 } else { (turn as u32) << 3 }
}

// ---- the calls

/// All 2×2 blocks of six coefficients at a step of 16, with tables and lambdas at which prices meet.
fn grid(tally: &mut Tally, random: &mut Random) {
    let values = [0, 8, -12, 16, 24, -40];
    for table in 0..6 {
        let costs = match table {
            0 => Costs::equal(0),
            1 => Costs::equal(32768),
            2 => usual(random),
            _ => even(random),
        };
        for lambda in [0.0, 1.0 / 1024.0, 1.0 / 256.0] {
            for i in 0..values.len().pow(4) {
                let buffer = [216, 36, 6, 1].map(|radix| values[i / radix % 6]).to_vec();
                let (intra_slice, intra_coded) = (i % 2 == 0, i % 4 < 2);
                let settings = Settings { qp: 4, lambda };
                one(
                    tally,
                    &Quantise {
                        buffer,
                        log2_side: 1,
                        component: COMPONENTS[i % 3],
                        settings,
                        intra_slice,
                        intra_coded,
                        costs,
                    },
                );
            }
        }
    }
}

/// A 4×4 block with up to five coefficients, about a step or two.
fn few(random: &mut Random, component: Component) -> Quantise {
    let mut call = tied(random, 2, component);
    call.buffer.fill(0);
    let step = 8i64 << (call.settings.qp / 6);
    for _ in 0..random.between(1, 5) {
        let place = random.place(&call.buffer);
        let any = random.between(0, 3 * step);
        let magnitude = random.one(&[step / 2, step * 3 / 4, step, step * 3 / 2, any]);
        call.buffer[place] = random.signed(magnitude as i128);
    }
    if random.yes() {
        call.costs = usual(random);
    }
    call
}

/// A block of quarters of a step, with steps, lambda and costs that are powers of two or small multiples of one: most
/// blocks are not the only ones of least price.
fn tied(random: &mut Random, log2_side: usize, component: Component) -> Quantise {
    let j = random.between(2, 5);
    let quarter = 1i128 << (3 + j - log2_side as i64);
    let often = 1 + random.below(4);
    let quarters = [0, 1, 2, 3, 3, 4, 5, 6, 6, 7, 10];
    let mut one = || {
        let magnitude = if random.below(often) == 0 { quarter * random.one(&quarters) } else { 0 };
        random.signed(magnitude)
    };
    let buffer = (0..1usize << (2 * log2_side)).map(|_| one()).collect();
    let lambda = if random.below(6) == 0 { 0.0 } else { (1u64 << (2 * j)) as f64 / 64.0 };
    let settings = Settings { qp: 6 * j as u32 + 4, lambda };
    let (intra_slice, intra_coded) = (random.yes(), random.yes());
    Quantise { buffer, log2_side, component, settings, intra_slice, intra_coded, costs: even(random) }
}

/// Small multiples of what the square of a quarter of a step costs in `tied`.
fn even(random: &mut Random) -> Costs {
    let most = random.one(&[3, 6, 24]);
    Costs::from([0; 28].map(|_| 8192 * random.below(most)))
}

fn usual(random: &mut Random) -> Costs {
    Costs::from([0; 28].map(|_| 4096 + random.below(160_000)))
}

// ---- what must come of them

fn one(tally: &mut Tally, call: &Quantise) {
    let (mut ours, mut walked) = (call.buffer.clone(), call.buffer.clone());
    let answer = galemosu::quantise(&mut ours, &call.asked(Mode::Least)).map_err(fault_of);
    let walk = galemosu::quantise(&mut walked, &call.asked(Mode::Walk)).map_err(fault_of);
    let good = match (order::quantise(call), walk) {
        (Some(fault), Err(same)) => refused(tally, &answer, fault) && same == fault && ours == call.buffer,
        (None, Ok(walk)) => answer.is_ok_and(|coded| {
            tally.both += 1;
            tally.kind("sides", call.log2_side - 1);
            tally.kind("pairs of QP and component", 3 * call.settings.qp as usize + call.component as usize);
            tally.kind("pairs of flags", 2 * call.intra_slice as usize + call.intra_coded as usize);
            let n = call.needs();
            cheapest(tally, &call.block(), coded, &ours[..n], walk, &walked[..n]) && ours[n..] == call.buffer[n..]
        }),
        _ => false,
    };
    tally.hold(good, call, &answer);
}

fn three(tally: &mut Tally, call: &SubBlock) {
    let (mut ours, mut walked) = (call.buffer.clone(), call.buffer.clone());
    let answer = galemosu::sub_block(&mut ours, &call.asked(Mode::Least)).map_err(fault_of);
    let walk = galemosu::sub_block(&mut walked, &call.asked(Mode::Walk)).map_err(fault_of);
    let good = match (order::sub_block(call), walk) {
        (Some(fault), Err(same)) => refused(tally, &answer, fault) && same == fault && ours == call.buffer,
        (None, Ok(walk)) => answer.is_ok_and(|coded| {
            tally.both += 1;
            tally.kind("luma sides", call.log2_luma - 2);
            tally.kind("run masks", call.run as usize & 7);
            let surplus = ours[call.needs()..] == call.buffer[call.needs()..];
            (0..3).fold(surplus, |good, k| component(tally, call, k, (coded[k], &ours), (walk[k], &walked)) && good)
        }),
        _ => false,
    };
    tally.hold(good, call, &answer);
}

/// Whether one component of an accepted call is as it must be: what the call answered and left, and what the walk's
/// did.
fn component(tally: &mut Tally, call: &SubBlock, k: usize, ours: (Coded, &[i16]), walk: (Coded, &[i16])) -> bool {
    let part = call.part(k);
    if !call.runs(k) {
        return ours.1[part.clone()] == call.buffer[part] && (ours.0.count, ours.0.price) == (0, 0);
    }
    let coefficients = call.coefficients(k);
    cheapest(tally, &call.block(k, &coefficients), ours.0, &ours.1[part.clone()], walk.0, &walk.1[part])
}

fn refused<T>(tally: &mut Tally, answer: &Result<T, Fault>, fault: Fault) -> bool {
    tally.refused(fault);
    answer.as_ref().err() == Some(&fault)
}

/// Whether levels are the block's cheapest, with the count and price of them; the walk's are beside them.
fn cheapest(tally: &mut Tally, block: &Block, coded: Coded, levels: &[i16], walk: Coded, walked: &[i16]) -> bool {
    let count = levels.iter().filter(|c| **c != 0).count();
    tally.kind("of skipped, emptied and coded", if block.skipped() { 0 } else { 1 + (count != 0) as usize });
    let kind = if levels == walked { 0 } else { 1 + (coded.price < walk.price) as usize };
    tally.kind("of the walk's block, one of its price and a cheaper one", kind);
    let right = if block.skipped() { vec![0; levels.len()] } else { found(tally, block) };
    levels == right
        && coded.count as usize == count
        && coded.price as i128 == block.price(levels)
        && coded.price <= walk.price
}

/// The cheapest block, listed where that can be; the two ways must agree.
fn found(tally: &mut Tally, block: &Block) -> Vec<i16> {
    let magnitudes = forwards(block);
    if let Some((first, several)) = listed(block) {
        tally.kind("of listed blocks with one and with several of least price", several as usize);
        assert_eq!(first, magnitudes, "the two ways of host/against/least.rs");
    }
    signed(block, &magnitudes)
}

/// The cheapest block of one that is not skipped.
pub fn found_by_search(block: &Block) -> Vec<i16> {
    signed(block, &forwards(block))
}

/// Magnitudes in scan order, the zeros at the end left out, as levels of the block.
fn signed(block: &Block, magnitudes: &[i128]) -> Vec<i16> {
    let mut levels = vec![0; block.coefficients.len()];
    for (place, a) in scan(1 << block.log2_side).into_iter().zip(magnitudes) {
        levels[place] = if block.coefficients[place] < 0 { -a as i16 } else { *a as i16 };
    }
    levels
}

/// "Magnitudes are each 0, m, or m-1 (if m ≥ 2)": for each place in scan order, the smaller first.
fn allowed(block: &Block) -> Vec<Vec<i128>> {
    let at = |place: usize| match block.rounded(block.coefficients[place]) {
        0 => vec![0],
        1 => vec![0, 1],
        m => vec![0, m - 1, m],
    };
    scan(1 << block.log2_side).into_iter().map(at).collect()
}

/// The first of least price in dictionary order, and whether there is another; nothing if there are too many blocks.
fn listed(block: &Block) -> Option<(Vec<i128>, bool)> {
    let allowed = allowed(block);
    if allowed
        .iter()
        .map(|some| some.len())
        .try_fold(1, |n: usize, k| (n * k <= MOST_LISTED).then_some(n * k))
        .is_none()
    {
        return None;
    }
    let mut all = vec![vec![]];
    for some in &allowed {
        all = all.iter().flat_map(|front: &Vec<i128>| some.iter().map(move |a| [&front[..], &[*a]].concat())).collect();
    }
    let prices: Vec<i128> = all.iter().map(|magnitudes| block.price(&signed(block, magnitudes))).collect();
    let least = prices.iter().min().unwrap();
    let first = prices.iter().position(|price| price == least).unwrap();
    let end = all[first].iter().rposition(|a| *a != 0).map_or(0, |last| last + 1);
    Some((all[first][..end].to_vec(), prices[first + 1..].contains(least)))
}

/// A price, and the magnitudes up to a place: the lesser is the cheaper, and at equal price the first in dictionary
/// order. A finished block has no zeros behind its last level, so that it comes before all that goes on from it.
type Front = (i128, Vec<i128>);

/// From the first place on, the least front whose last magnitude is 0 and the least whose last is not: of two with the
/// same to come, the lesser serves every block at least as well. A front pays for each of its levels as one that others
/// follow.
fn forwards(block: &Block) -> Vec<i128> {
    let places = scan(1 << block.log2_side);
    let mut rest = block.uncoded();
    let mut finished: Front = (rest + block.cbf(0), vec![]);
    let (mut after_zero, mut after_level): (Option<Front>, Option<Front>) = (None, Some((block.cbf(1), vec![])));
    for (place, allowed) in places.into_iter().zip(allowed(block)) {
        rest -= block.square(block.coefficients[place], 0);
        let (mut zero, mut level): (Option<Front>, Option<Front>) = (None, None);
        for (is_zero, front) in [(true, &after_zero), (false, &after_level)] {
            let Some((price, magnitudes)) = front else { continue };
            for a in &allowed {
                let price = price + block.cost(place, is_zero, *a);
                let longer = || [&magnitudes[..], &[*a]].concat();
                if *a == 0 {
                    keep(&mut zero, price, longer);
                } else {
                    keep(&mut level, price + block.last(0), longer);
                    finished = finished.min((price + block.last(1) + rest, longer()));
                }
            }
        }
        (after_zero, after_level) = (zero, level);
    }
    finished.1
}

/// The front, if it is less than what is kept.
fn keep(kept: &mut Option<Front>, price: i128, magnitudes: impl Fn() -> Vec<i128>) {
    if kept.as_ref().is_none_or(|least| price <= least.0 && (price, magnitudes()) < *least) {
        *kept = Some((price, magnitudes()));
    }
}
