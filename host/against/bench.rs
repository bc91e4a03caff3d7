//! Times the calls beside the Rust's release build, the second mode beside the walk, the way back beside the way there,
//! the guarded call beside the unguarded one, and run lists beside the walk, in one process: nanoseconds a call, the
//! best of many rounds, with what the copy of the input takes off; how much the second mode saves; and what heights
//! cost in bits. With a word, only that table: transform, quantise, least, back, guarded or symbols.

mod bits;
mod blocks;
mod digits;
mod matrix;
mod plain;
mod recorder;
mod scan;
use bits::bits;
use blocks::Random;
use digits::{Digit, Guess};
use galemosu::{guarded_sub_block, sub_block, Heights, Refusal, SubBlock};
use galemosu::{inverse, quantise, scale_back, transform, Component, Costs, Mode, Quantise, Settings};
use galemosu::{read_symbols, write_symbols};
use std::time::Instant;

const ROUNDS: usize = 60;

/// Blocks, all of one length, and a call that is timed over copies of them.
type Timed<'a> = (&'a [Vec<i16>], &'a mut dyn FnMut(&mut [i16]));

/// What calls take over copies of their blocks, in nanoseconds, without the copy: the best of many short rounds, in
/// which the copy and the calls are taken in turn, so that what else the machine does meets all of them.
fn best_of<const N: usize>(repeat: usize, mut calls: [Timed; N]) -> [f64; N] {
    let blocks = calls[0].0;
    let mut room = vec![0i16; blocks[0].len()];
    let mut round = |blocks: &[Vec<i16>], call: &mut dyn FnMut(&mut [i16]), least: &mut f64| {
        let start = Instant::now();
        for _ in 0..repeat {
            for block in blocks {
                room.copy_from_slice(block);
                call(std::hint::black_box(&mut room));
            }
        }
        *least = least.min(start.elapsed().as_nanos() as f64 / (repeat * blocks.len()) as f64);
    };
    let (mut copy, mut least) = (f64::MAX, [f64::MAX; N]);
    for _ in 0..ROUNDS {
        round(blocks, &mut |_| {}, &mut copy);
        for ((blocks, call), least) in calls.iter_mut().zip(&mut least) {
            round(blocks, &mut **call, least);
        }
    }
    least.map(|time| time - copy)
}

/// Two calls over the same blocks.
fn best(
    blocks: &[Vec<i16>],
    repeat: usize,
    one: &mut dyn FnMut(&mut [i16]),
    other: &mut dyn FnMut(&mut [i16]),
) -> (f64, f64) {
    let [one, other] = best_of(repeat, [(blocks, one), (blocks, other)]);
    (one, other)
}

fn main() {
    let tables: [(&str, fn()); 9] = [
        ("transform", transforms),
        ("quantise", quantisers),
        ("least", modes),
        ("least", savings),
        ("back", inverses),
        ("back", scalings),
        ("guarded", looks),
        ("guarded", heights),
        ("symbols", lists),
    ];
    let asked = std::env::args().nth(1);
    let wanted: Vec<fn()> = tables
        .iter()
        .filter(|(name, _)| asked.as_ref().is_none_or(|word| word == name))
        .map(|(_, table)| *table)
        .collect();
    if wanted.is_empty() {
        eprintln!("usage: bench [transform|quantise|least|back|guarded|symbols]");
        std::process::exit(2);
    }
    wanted.into_iter().for_each(|table| table());
}

const COSTS: Costs = Costs::from_entries(recorder::COSTS);

/// Luma of an intra-coded block in an intra slice.
fn call(log2: usize, lambda: f64, mode: Mode) -> Quantise<'static> {
    let mut call = Quantise::new(Component::Y, log2, Settings { qp: recorder::QP, lambda }, &COSTS);
    (call.intra_slice, call.intra_coded, call.mode) = (true, true, mode);
    call
}

const SHAPES: [(usize, usize); 10] = [(1, 1), (2, 2), (3, 3), (4, 4), (5, 5), (3, 2), (2, 4), (4, 3), (3, 5), (5, 4)];

fn transforms() {
    let mut random = Random::new(7);
    println!("| sides | blocks | Rust ns | Galemosu ns | times as fast |");
    println!("|---|---|---|---|---|");
    for (log2_w, log2_h) in SHAPES {
        let (w, n) = (1usize << log2_w, 1usize << (log2_w + log2_h));
        let kinds = [
            ("random", (0..16).map(|_| random.residuals(n)).collect::<Vec<_>>()),
            ("text", (0..16).map(|_| random.text(w, n)).collect()),
        ];
        for (kind, blocks) in kinds {
            let (rust, ours) = best(&blocks, 60_000 / n + 3, &mut |b| oracle::transform(b, log2_w, log2_h), &mut |b| {
                galemosu::transform(b, log2_w, log2_h).unwrap()
            });
            println!("| {w}×{} | {kind} | {rust:.0} | {ours:.0} | {:.2} |", 1 << log2_h, rust / ours);
        }
    }
}

fn quantisers() {
    let flat = recorder::COSTS.map(|entry| entry as i32);
    println!("\n| side | blocks | nonzero levels | Rust ns | Galemosu ns | times as fast |");
    println!("|---|---|---|---|---|---|");
    for (log2, kind, mut blocks) in recorder::blocks() {
        blocks.iter_mut().for_each(|b| transform(b, log2, log2).unwrap());
        let call = call(log2, recorder::LAMBDA, Mode::Walk);
        let ours = |b: &mut [i16]| quantise(b, &call).unwrap();
        let levels: u32 = blocks.iter().map(|b| ours(&mut b.clone()).count).sum();
        let (rust, mine) = best(
            &blocks,
            30_000 / blocks[0].len() + 3,
            &mut |b| {
                let (qp, lambda) = (recorder::QP as u8, recorder::LAMBDA);
                std::hint::black_box(oracle::quant(qp, lambda, true, true, b, log2, log2, 0, &flat));
            },
            &mut |b| {
                std::hint::black_box(ours(b));
            },
        );
        println!(
            "| {} | {kind} | {} | {rust:.0} | {mine:.0} | {:.2} |",
            1 << log2,
            levels / recorder::BLOCKS as u32,
            rust / mine
        );
    }
}

/// The second mode beside the walk, on the blocks of the quantiser's table.
fn modes() {
    println!("\n| side | blocks | nonzero levels | walk ns | least ns | least / walk |");
    println!("|---|---|---|---|---|---|");
    for (log2, kind, mut blocks) in recorder::blocks() {
        blocks.iter_mut().for_each(|b| transform(b, log2, log2).unwrap());
        let [walk, least] = [Mode::Walk, Mode::Least].map(|mode| call(log2, recorder::LAMBDA, mode));
        let levels: u32 = blocks.iter().map(|b| quantise(&mut b.clone(), &least).unwrap().count).sum();
        let timed = |call: Quantise<'static>| {
            move |b: &mut [i16]| {
                std::hint::black_box(quantise(b, &call).unwrap());
            }
        };
        let (walked, searched) = best(&blocks, 30_000 / blocks[0].len() + 3, &mut timed(walk), &mut timed(least));
        println!(
            "| {} | {kind} | {} | {walked:.0} | {searched:.0} | {:.2} |",
            1 << log2,
            levels / recorder::BLOCKS as u32,
            searched / walked
        );
    }
}

/// How many blocks each row of the savings is about.
const SAVED: usize = 500;

/// What the second mode saves of the walk's price on a label's strokes, at a quarter of the usual lambda, at it, and at
/// four times it.
fn savings() {
    println!("\n| side | blocks | lambda | other levels than the walk's | saved of its price, mean | most |");
    println!("|---|---|---|---|---|---|");
    let mut random = Random::new(13);
    for log2 in 2..=5 {
        let (w, n) = (1usize << log2, 1usize << (2 * log2));
        for (kind, one) in [
            ("soft text", Random::soft_text as fn(&mut Random, usize, usize) -> Vec<i16>),
            ("sharp text", Random::text),
        ] {
            let mut blocks: Vec<Vec<i16>> = (0..SAVED).map(|_| one(&mut random, w, n)).collect();
            blocks.iter_mut().for_each(|b| transform(b, log2, log2).unwrap());
            for lambda in [recorder::LAMBDA / 4.0, recorder::LAMBDA, recorder::LAMBDA * 4.0] {
                let (others, saved) = saving(log2, lambda, &blocks);
                let most = saved.iter().copied().fold(0.0, f64::max);
                let mean = saved.iter().sum::<f64>() / SAVED as f64;
                println!(
                    "| {w} | {kind} | {lambda:.1} | {:.1} % | {mean:.3} % | {most:.2} % |",
                    100.0 * others as f64 / SAVED as f64
                );
            }
        }
    }
}

/// How many blocks the two modes leave with other levels, and the percentage that the second saves of each block's
/// price.
fn saving(log2: usize, lambda: f64, blocks: &[Vec<i16>]) -> (usize, Vec<f64>) {
    let mut others = 0;
    let saved = |block: &Vec<i16>| {
        let (mut walked, mut searched) = (block.clone(), block.clone());
        let walk = quantise(&mut walked, &call(log2, lambda, Mode::Walk)).unwrap().price;
        let least = quantise(&mut searched, &call(log2, lambda, Mode::Least)).unwrap().price;
        others += (walked != searched) as usize;
        100.0 * (walk - least) as f64 / walk as f64
    };
    let saved = blocks.iter().map(saved).collect();
    (others, saved)
}

/// The inverse beside the transform of the same blocks, and beside a plain one in Rust.
fn inverses() {
    let mut random = Random::new(17);
    println!("\n| sides | blocks | transform ns | inverse ns | inverse / transform | plain Rust ns | times as fast |");
    println!("|---|---|---|---|---|---|---|");
    for (log2_w, log2_h) in SHAPES {
        let (w, n) = (1usize << log2_w, 1usize << (log2_w + log2_h));
        let kinds = [
            ("random", (0..16).map(|_| random.residuals(n)).collect::<Vec<_>>()),
            ("text", (0..16).map(|_| random.text(w, n)).collect()),
        ];
        for (kind, residuals) in kinds {
            let mut coefficients = residuals.clone();
            coefficients.iter_mut().for_each(|b| transform(b, log2_w, log2_h).unwrap());
            let mut plain = plain::Inverse::new(log2_w, log2_h);
            for block in &coefficients {
                let (mut ours, mut theirs) = (block.clone(), block.clone());
                inverse(&mut ours, log2_w, log2_h).unwrap();
                plain.run(&mut theirs);
                assert_eq!(ours, theirs);
            }
            let [forth, back, plain] = best_of(
                60_000 / n + 3,
                [
                    (&residuals, &mut |b| transform(b, log2_w, log2_h).unwrap()),
                    (&coefficients, &mut |b| inverse(b, log2_w, log2_h).unwrap()),
                    (&coefficients, &mut |b| plain.run(b)),
                ],
            );
            println!(
                "| {w}×{} | {kind} | {forth:.0} | {back:.0} | {:.2} | {plain:.0} | {:.2} |",
                1 << log2_h,
                back / forth,
                plain / back
            );
        }
    }
}

/// Scaling back the levels of sharp text, beside plain Rust, and beside the quantiser's skip of a blank block.
fn scalings() {
    let mut random = Random::new(19);
    println!("\n| side | nonzero levels | scale_back ns | plain Rust ns | times as fast | quantiser's skip ns |");
    println!("|---|---|---|---|---|---|");
    for log2 in 1..=5 {
        let (w, n) = (1usize << log2, 1usize << (2 * log2));
        let quantiser = call(log2, recorder::LAMBDA, Mode::Walk);
        let coefficients = |mut block: Vec<i16>| {
            transform(&mut block, log2, log2).unwrap();
            block
        };
        let blank: Vec<Vec<i16>> = (0..16).map(|_| coefficients(random.blank(n))).collect();
        let mut levels: Vec<Vec<i16>> = (0..16).map(|_| coefficients(random.text(w, n))).collect();
        let counts = levels.iter_mut().map(|b| quantise(b, &quantiser).unwrap().count);
        let count: u32 = counts.sum();
        assert!(blank.iter().all(|b| quantise(&mut b.clone(), &quantiser).unwrap().is_empty()));
        for block in &levels {
            let (mut ours, mut theirs) = (block.clone(), block.clone());
            scale_back(&mut ours, log2, recorder::QP).unwrap();
            plain::scale_back(&mut theirs, log2, recorder::QP);
            assert_eq!(ours, theirs);
        }
        let [back, plain, skip] = best_of(
            60_000 / n + 3,
            [
                (&levels, &mut |b| scale_back(b, log2, recorder::QP).unwrap()),
                (&levels, &mut |b| plain::scale_back(b, log2, std::hint::black_box(recorder::QP))),
                (&blank, &mut |b| {
                    std::hint::black_box(quantise(b, &quantiser).unwrap());
                }),
            ],
        );
        println!("| {w} | {} | {back:.0} | {plain:.0} | {:.2} | {skip:.0} |", count / 16, plain / back);
    }
}

/// Luma alone of an intra-coded block in an intra slice; the buffer has room for the other two.
fn luma(log2: usize, settings: Settings, costs: &Costs) -> SubBlock<'_> {
    let mut call = SubBlock::new(log2, [settings; 3], costs);
    (call.run, call.intra_slice, call.intra_coded) = (SubBlock::RUN_Y, true, true);
    call
}

/// Residuals of luma with those of U and V behind them, at half the side.
fn with_chroma(mut luma: Vec<i16>) -> Vec<i16> {
    let n = luma.len();
    luma.extend_from_within(..n / 4);
    luma.extend_from_within(..n / 4);
    luma
}

/// The guarded call where nothing is repaired, beside the unguarded one: luma alone, and all three components.
fn looks() {
    let three = ["unguarded ns | guarded ns | guarded / unguarded"; 2];
    println!("\n| side | blocks | Y: {} | Y, U, V: {} |", three[0], three[1]);
    println!("|---|---|---|---|---|---|---|---|");
    for (log2, kind, blocks) in recorder::blocks() {
        let blocks: Vec<Vec<i16>> = blocks.into_iter().map(with_chroma).collect();
        let settings = Settings { qp: recorder::QP, lambda: recorder::LAMBDA };
        let mut cells = String::new();
        for run in [SubBlock::RUN_Y, SubBlock::RUN_Y | SubBlock::RUN_U | SubBlock::RUN_V] {
            let mut call = luma(log2, settings, &COSTS);
            call.run = run;
            let (free, held) = best(
                &blocks,
                30_000 / blocks[0].len() + 3,
                &mut |b| {
                    std::hint::black_box(sub_block(b, &call).unwrap());
                },
                &mut |b| {
                    std::hint::black_box(guarded_sub_block(b, &call, &[Heights::ANY; 3]).unwrap());
                },
            );
            cells += &format!(" {free:.0} | {held:.0} | {:.2} |", held / free);
        }
        println!("| {} | {kind} |{cells}", 1 << log2);
    }
}

const ONE_BIT: Costs = Costs::equal(Costs::BIT);

/// How many blocks of digits each row of the heights is about.
const HELD: usize = 300;

/// What heights cost on digits, of luma at an encoder's lambda: bits over all blocks that are not refused, and time
/// over all; and how many blocks are repaired and refused.
fn heights() {
    let both = [64, 96, 128, 192];
    for word in ["more bits (repaired, refused)", "guarded / unguarded, in time"] {
        println!("\n{word}:\n");
        let head = both.map(|height| format!("heights {height}")).join(" | ");
        println!("| guess | side | QP | {head} |");
        println!("|---|---|---|{}", "---|".repeat(both.len()));
        let mut random = Random::new(20_261_116);
        for (name, guess) in [("even", Guess::Even), ("another digit", Guess::Another)] {
            for log2 in 3..=5 {
                let mut one = || with_chroma(Digit::drawn(&mut random, log2, guess).residuals);
                let blocks: Vec<Vec<i16>> = (0..HELD).map(|_| one()).collect();
                for qp in [34, 38, 42, 46] {
                    let call = luma(log2, Settings::usual(qp), &ONE_BIT);
                    let cells = both.map(|height| match word.starts_with("more") {
                        true => costs_of(&blocks, &call, Heights::both(height)),
                        false => times_of(&blocks, &call, Heights::both(height)),
                    });
                    println!("| {name} | {} | {qp} | {} |", 1 << log2, cells.join(" | "));
                }
            }
        }
    }
}

fn costs_of(blocks: &[Vec<i16>], call: &SubBlock, height: Heights) -> String {
    let (mut free, mut held, mut repaired, mut refused) = (0.0, 0.0, 0, 0);
    for block in blocks {
        let (mut one, mut other) = (block.clone(), block.clone());
        sub_block(&mut one, call).unwrap();
        match guarded_sub_block(&mut other, call, &[height; 3]) {
            Ok(_) => {
                let n = block.len() / 3 * 2;
                free += f64::from(bits(&one[..n], call.log2_luma));
                held += f64::from(bits(&other[..n], call.log2_luma));
                repaired += (one != other) as usize;
            }
            Err(why) => {
                assert_eq!(why.refusal, Refusal::Height);
                refused += 1;
            }
        }
    }
    let share = |n: usize| format!("{:.1} %", 100.0 * n as f64 / blocks.len() as f64);
    if refused == blocks.len() {
        return "all refused".to_string();
    }
    format!("{:.1} % ({}, {})", 100.0 * (held / free - 1.0), share(repaired), share(refused))
}

fn times_of(blocks: &[Vec<i16>], call: &SubBlock, height: Heights) -> String {
    let (free, held) = best(
        blocks,
        1,
        &mut |b| {
            std::hint::black_box(sub_block(b, call).unwrap());
        },
        &mut |b| {
            let _ = std::hint::black_box(guarded_sub_block(b, call, &[height; 3]));
        },
    );
    format!("{:.2}", held / free)
}

/// How many blocks each row of the run lists is about.
const LISTED: usize = 64;

/// Coefficients of each kind at QP 34: of paper, of digits, and of 4 to 12 steps everywhere.
fn listed(random: &mut Random, log2: usize) -> [(&'static str, Vec<Vec<i16>>); 3] {
    let n = 1usize << (2 * log2);
    let mut coefficients = |one: &mut dyn FnMut(&mut Random) -> Vec<i16>| -> Vec<Vec<i16>> {
        let transformed = |mut block: Vec<i16>| {
            transform(&mut block, log2, log2).unwrap();
            block
        };
        (0..LISTED).map(|_| transformed(one(random))).collect()
    };
    let paper = coefficients(&mut |random| random.blank(n));
    let digits = coefficients(&mut |random| Digit::drawn(random, log2, Guess::Even).residuals);
    let step = 1024 >> log2;
    let mut dense = || (0..n).map(|_| random.between(4, 12) * step).collect::<Vec<i64>>();
    let dense: Vec<Vec<i64>> = (0..LISTED).map(|_| dense()).collect();
    let dense = dense.into_iter().map(|block| block.into_iter().map(|c| random.signed(c as i128)).collect()).collect();
    [("paper", paper), ("digits", digits), ("dense", dense)]
}

/// Symbols written and read, beside the walk that has left the levels.
fn lists() {
    let mut random = Random::new(23);
    println!("\n| side | blocks | nonzero levels | walk ns | write ns | read ns | write / walk | read / walk |");
    println!("|---|---|---|---|---|---|---|---|");
    for log2 in 2..=5 {
        let n = 1usize << (2 * log2);
        for (kind, coefficients) in listed(&mut random, log2) {
            let call = call(log2, recorder::LAMBDA, Mode::Walk);
            let mut levels = coefficients.clone();
            let count: u32 = levels.iter_mut().map(|b| quantise(b, &call).unwrap().count).sum();
            let mut room = vec![0; n];
            let lists: Vec<Vec<u32>> =
                levels.iter().map(|b| write_symbols(b, log2, &mut room).unwrap().to_vec()).collect();
            let mut turn = lists.iter().cycle();
            let [walk, write, read] = best_of(
                30_000 / n / 4 + 1,
                [
                    (&coefficients, &mut |b| {
                        std::hint::black_box(quantise(b, &call).unwrap());
                    }),
                    (&levels, &mut |b| {
                        std::hint::black_box(write_symbols(b, log2, &mut room).unwrap());
                    }),
                    (&coefficients, &mut |b| read_symbols(turn.next().unwrap(), b, log2).unwrap()),
                ],
            );
            let (count, writes, reads) = (count / LISTED as u32, write / walk, read / walk);
            println!(
                "| {} | {kind} | {count} | {walk:.0} | {write:.0} | {read:.0} | {writes:.2} | {reads:.2} |",
                1 << log2
            );
        }
    }
}
