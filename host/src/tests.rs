use super::*;
use std::error::Error;
use std::string::ToString;
use std::vec::Vec;
use std::{format, vec};

const FLAT: Costs = Costs::equal(Costs::BIT);
const COMPONENTS: [Component; 3] = [Component::Y, Component::U, Component::V];

/// A call of an intra-coded block in an intra slice, by the walk.
fn intra(component: Component, log2_side: usize, settings: Settings, costs: &Costs) -> Quantise<'_> {
    Quantise { intra_slice: true, intra_coded: true, ..Quantise::new(component, log2_side, settings, costs) }
}

fn least(call: Quantise<'_>) -> Quantise<'_> {
    Quantise { mode: Mode::Least, ..call }
}

#[test]
fn one_version_in_archive_header_crate_and_manifest() {
    let of = |part: &str| part.parse::<u32>().unwrap();
    let manifest = of(env!("CARGO_PKG_VERSION_MAJOR")) * 10_000
        + of(env!("CARGO_PKG_VERSION_MINOR")) * 100
        + of(env!("CARGO_PKG_VERSION_PATCH"));
    let header = include_str!("../include/galemosu.h");
    let defined = header.lines().find_map(|line| line.strip_prefix("#define GALEMOSU_VERSION ")).unwrap();
    assert_eq!([version(), of(defined), manifest], [VERSION; 3]);
    assert!(header.starts_with(&format!(
        "/* The proved transform and quantiser of an EVC recorder, and their way back: libgalemosu.a, version {}.\n",
        env!("CARGO_PKG_VERSION")
    )));
}

#[test]
fn the_header_has_the_same_numbers() {
    let header = include_str!("../include/galemosu.h");
    let defined = |name: &str, value: u32| {
        assert!(header.contains(&format!("#define {name} {value}u")), "{name} is not {value} in galemosu.h");
    };
    defined("GALEMOSU_INTRA_SLICE", raw::INTRA_SLICE);
    defined("GALEMOSU_INTRA_CODED", raw::INTRA_CODED);
    defined("GALEMOSU_LEAST", raw::LEAST);
    defined("GALEMOSU_RUN_Y", SubBlock::RUN_Y);
    defined("GALEMOSU_RUN_U", SubBlock::RUN_U);
    defined("GALEMOSU_RUN_V", SubBlock::RUN_V);
    for number in (1..=11).chain([15]) {
        let name = format!("{:?}", Refusal::of(number).unwrap()).to_uppercase();
        assert!(header.contains(&format!("    GALEMOSU_{name} = {number}")), "{name} is not {number} in galemosu.h");
    }
}

#[test]
fn every_number_but_0_is_a_refusal() {
    assert_eq!(Refusal::of(0), None);
    assert_eq!(Refused::of(0, 2), None);
    for number in (1..300).chain([1 << 16, 1 << 31, u32::MAX]) {
        let refusal = Refusal::of(number).unwrap();
        assert_eq!(refusal.number(), number);
        assert_eq!(refusal == Refusal::Unknown(number), number > 11 && number != 15);
        let strange = Refused { refusal: Refusal::Unknown(number), component: None };
        for (component, told) in COMPONENTS.into_iter().zip(0..) {
            let right = match refusal.is_of_a_component() {
                true => Refused { refusal, component: Some(component) },
                false if told == 0 => Refused { refusal, component: None },
                false => strange,
            };
            assert_eq!(Refused::of(number, told), Some(right));
        }
        assert_eq!(Refused::of(number, 3), Some(strange));
    }
}

#[test]
fn a_refusal_says_what_it_is() {
    let said = |number, component| Refused::of(number, component).unwrap().to_string();
    assert_eq!(said(2, 1), "refused with 2 in U: QP is above 63");
    assert_eq!(said(5, 0), "refused with 5: the buffer is too short");
    assert_eq!(said(10, 0), "refused with 10: the list has fewer places than the block has levels that are not 0");
    assert_eq!(said(11, 0), "refused with 11: the list of symbols is no block's of this side");
    assert_eq!(said(12, 0), "refused with 12: a reason unknown to this version of the host crate");
    let error: &dyn Error = &Refused::from(Refusal::Sample);
    assert!(error.source().is_none());
}

#[test]
fn costs_by_name_are_the_28_numbers() {
    let mut entries = [0; 28];
    (0..28).for_each(|i| entries[i] = 100 + i as u64);
    let costs = Costs::from(entries);
    assert_eq!(costs.entries(), entries);
    assert_eq!(<[u64; 28]>::from(costs), entries);
    // SAFETY: the size and the order of the fields are asserted where they are declared; each is a u64
    let as_lent: [u64; 28] = unsafe { std::mem::transmute(costs) };
    assert_eq!(as_lent, entries);
    assert_eq!((costs.run[2], costs.level[1], costs.last[1]), ([104, 105], [110, 111], [118, 119]));
    assert_eq!(costs.cbf_all, [120, 121]);
    assert_eq!((costs.cbf_luma, costs.cbf_cb, costs.cbf_cr), ([122, 123], [124, 125], [126, 127]));
    assert_eq!(Costs::equal(7).entries(), [7; 28]);
}

/// What the ported encoder estimates of a context that has seen nothing (`entropy_bits`, `PROB_INIT`).
#[test]
fn an_encoder_starts_from_one_half() {
    let (mut state, of_2) = (512u16 >> 1, 2.0f64.log10());
    state <<= 1;
    let p = 512.0 * (f64::from(state) + 0.5) / 1024.0;
    assert_eq!((-32768.0 * (p.log10() / of_2 - 9.0)) as u64, Costs::START.run[0][0]);
    assert_eq!(Costs::START, Costs::equal(32_721));
}

#[test]
fn the_usual_lambda() {
    for qp in 0..64 {
        let right = 0.57 * 2f64.powf((f64::from(qp) - 24.0) / 3.0);
        let lambda = Settings::usual(qp).lambda;
        assert!((lambda / right - 1.0).abs() < 1e-15, "{qp}: {lambda} {right}");
    }
    assert_eq!(Settings::usual(u32::MAX), Settings { qp: u32::MAX, lambda: Settings::usual(63).lambda });
}

/// A block that is weighed and emptied costs about 2^26 times the sum of its squared residuals.
#[test]
fn the_unit_of_a_price() {
    let mut costs = FLAT;
    costs.cbf_luma[0] = 0;
    for log2 in 1..=5 {
        for qp in [10, 17, 22] {
            let mut block: Vec<i16> = (0..1 << (2 * log2)).map(|i| (i * 37 % 41 - 20) as i16).collect();
            let squares: f64 = block.iter().map(|r| f64::from(*r).powi(2)).sum();
            transform(&mut block, log2, log2).unwrap();
            let coded = quantise(&mut block, &intra(Component::Y, log2, Settings { qp, lambda: 8192.0 }, &costs));
            let Coded { count, price } = coded.unwrap();
            let ratio = price as f64 / (squares * (1u64 << 26) as f64);
            assert!(count == 0 && (0.95..1.05).contains(&ratio), "{log2} {qp}: {count} {ratio}");
        }
    }
}

/// A bit costs 32768 times lambda's whole number: the flag of an emptied block, one bit dearer.
#[test]
fn a_bit_of_a_price() {
    let [one, two] = [1, 2].map(|bits| {
        let mut costs = FLAT;
        costs.cbf_luma[0] = bits * Costs::BIT;
        let call = intra(Component::Y, 1, Settings { qp: 4, lambda: 3.0 }, &costs);
        quantise(&mut [10, 0, 0, 0], &call).unwrap()
    });
    assert_eq!((one.count, two.count), (0, 0));
    assert_eq!(two.price - one.price, Costs::BIT * (3 * 32768));
}

#[test]
fn the_paper_s_first_number() {
    let mut block = [1, 2, 3, 4, 5, -6];
    assert_eq!(transform(&mut block, 1, 1), Ok(()));
    assert_eq!(block, [80, -16, -32, 0, 5, -6]);
}

#[test]
fn a_flat_block_has_one_coefficient() {
    for (residual, first) in [(1023, 32736), (-1023, -32736)] {
        let mut block = [residual; 1024];
        assert_eq!(transform(&mut block, 5, 5), Ok(()));
        assert_eq!(block[0], first);
        assert!(block[1..].iter().all(|c| *c == 0));
    }
}

#[test]
fn a_refused_block_holds_what_it_held() {
    let held = [1024, 0, 0, 0];
    let mut block = held;
    assert_eq!(transform(&mut block, 0, 1), Err(Refusal::Side));
    assert_eq!(transform(&mut block, 1, usize::MAX), Err(Refusal::Side));
    assert_eq!(transform(&mut block, 2, 1), Err(Refusal::Length));
    assert_eq!(transform(&mut block, 1, 1), Err(Refusal::Sample));
    assert_eq!(transform(&mut [], 1, 1), Err(Refusal::Length));
    assert_eq!(block, held);
}

/// Document 01's P5 to P12: luma of an intra-coded block in an intra slice.
fn luma(block: &mut [i16], log2_side: usize, qp: u32, lambda: f64) -> Result<Coded, Refused> {
    quantise(block, &intra(Component::Y, log2_side, Settings { qp, lambda }, &FLAT))
}

#[test]
fn the_paper_s_levels_and_prices() {
    for (held, lambda, levels, count, price) in [
        ([20, 7, 0, 0], 1.0 / 1024.0, [1, 0, 0, 0], 1, 22_282_240),
        ([-24, 0, 0, 0], 1.0 / 1024.0, [-1, 0, 0, 0], 1, 22_020_096),
        ([16, 8, 0, 0], 0.0, [1, 0, 0, 0], 1, 16_777_216),
        ([10, 0, 0, 0], 1.0 / 64.0, [0, 0, 0, 0], 0, 42_991_616),
        ([9, 0, 0, 0], 1.0 / 1024.0, [0, 0, 0, 0], 0, 22_282_240),
    ] {
        let mut block = held;
        let coded = luma(&mut block, 1, 4, lambda).unwrap();
        assert_eq!(coded, Coded { count, price });
        assert_eq!(coded.is_empty(), count == 0);
        assert_eq!(block, levels);
    }
}

#[test]
fn the_paper_s_refusals() {
    let with = |values: &[i16], qp, lambda| {
        let mut block = vec![0; 1024];
        block[..values.len()].copy_from_slice(values);
        luma(&mut block, 5, qp, lambda).map(|_| ()).map_err(|r| r.refusal)
    };
    assert_eq!(with(&[29183], 3, 1.0 / 1024.0), Ok(()));
    assert_eq!(with(&[29184], 3, 1.0 / 1024.0), Err(Refusal::Level));
    assert_eq!(with(&[8191], 4, 8192.0), Ok(()));
    assert_eq!(with(&[8192], 4, 8192.0), Err(Refusal::Price));
    assert_eq!(with(&[16384; 64], 4, 0.0), Ok(()));
    assert_eq!(with(&[16384; 65], 4, 0.0), Err(Refusal::Distortion));
}

#[test]
fn a_refusal_says_its_component_and_leaves_the_block() {
    let held = [-32768, 0, 0, 0, 77];
    let mut block = held;
    let settings = Settings { qp: 4, lambda: 0.5 };
    let mut refused = |component, log2_side, settings, costs: &Costs| {
        let refused = quantise(&mut block, &intra(component, log2_side, settings, costs)).unwrap_err();
        assert_eq!(block, held);
        (refused.refusal, refused.component)
    };
    let unset = Settings { qp: 63, lambda: f64::NAN };
    assert_eq!(refused(Component::V, 1, settings, &FLAT), (Refusal::Sample, Some(Component::V)));
    assert_eq!(refused(Component::U, 1, Settings { qp: 64, ..unset }, &FLAT), (Refusal::Qp, Some(Component::U)));
    assert_eq!(refused(Component::U, 1, unset, &FLAT), (Refusal::Lambda, Some(Component::U)));
    let mut dear = FLAT;
    dear.last[1][1] = -1i32 as u64;
    assert_eq!(refused(Component::U, 2, settings, &dear), (Refusal::Cost, None));
}

/// 9 alone is skipped in an intra slice, and 10 is not; elsewhere 11 is, and 12 is not (document 01's P9): where an
/// empty block is dear, what is weighed is coded. How the block itself is coded chooses luma's flag, and nothing else;
/// a skipped block's price has that flag too.
#[test]
fn the_two_flags() {
    let call = |lambda, costs: &Costs, coefficient, component, intra_slice, intra_coded| {
        let settings = Settings { qp: 4, lambda };
        let call = Quantise { intra_slice, intra_coded, ..Quantise::new(component, 1, settings, costs) };
        quantise(&mut [coefficient, 0, 0, 0], &call).unwrap()
    };
    let mut dear = FLAT;
    (dear.cbf_all[0], dear.cbf_luma[0]) = (Costs::MOST, Costs::MOST);
    for coded in [false, true] {
        let skipped = [(9, true), (10, true), (11, false), (12, false)]
            .map(|(coefficient, slice)| call(1.0 / 1024.0, &dear, coefficient, Component::Y, slice, coded).is_empty());
        assert_eq!(skipped, [true, false, true, false]);
    }
    let mut costs = FLAT;
    (costs.cbf_all[0], costs.cbf_luma[0]) = (1000, 2000);
    for (coefficient, slice) in [(12, false), (12, true), (9, true), (11, false)] {
        let price = |component, coded| {
            let coded = call(1.0 / 64.0, &costs, coefficient, component, slice, coded);
            assert_eq!(coded.count, 0);
            coded.price
        };
        assert_eq!(price(Component::Y, true) - price(Component::Y, false), 1000 * 512);
        assert_eq!(price(Component::U, true), price(Component::U, false));
    }
}

#[test]
fn bits_that_mean_nothing() {
    let call = |flags: u32, run: u32| {
        let (mut buffer, mut answer): (Vec<i16>, _) = ((0..24).map(|i| i * 37 % 200 - 100).collect(), [0; 7]);
        let (qp, lambda) = ([20, 12, 30], [0.25, 0.5, 0.0]);
        // SAFETY: the lengths are the call's
        let number = unsafe {
            let (b, a) = (buffer.as_mut_ptr(), answer.as_mut_ptr());
            raw::galemosu_sub_block(b, buffer.len(), 2, qp.as_ptr(), lambda.as_ptr(), run, flags, &FLAT, a)
        };
        (number, buffer, answer)
    };
    for flags in 0..8 {
        for run in 0..8 {
            for more in [1 << 4, 1 << 31, u32::MAX << 4] {
                assert_eq!(call(flags | more, run), call(flags, run));
                assert_eq!(call(flags, run | more), call(flags, run));
            }
        }
    }
}

/// All entries 0 but the price of a level of 1 and, in units of what a square costs at QP 4 and lambda 1/1024, the
/// run's four.
fn runs(level: u64, run: [u64; 4]) -> Costs {
    let mut costs = Costs::equal(0);
    for row in [0, 2] {
        costs.level[row][0] = level * 8192;
        costs.run[row] = [run[0] * 8192, run[1] * 8192];
        costs.run[row + 1] = [run[2] * 8192, run[3] * 8192];
    }
    costs
}

/// As document 01's P5: an intra-coded block in an intra slice, QP 4 and lambda 1/1024.
fn both_modes(held: [i16; 4], component: Component, costs: &Costs) -> [(Result<Coded, Refused>, [i16; 4]); 2] {
    let call = intra(component, 1, Settings { qp: 4, lambda: 1.0 / 1024.0 }, costs);
    [call, least(call)].map(|call| {
        let mut block = held;
        (quantise(&mut block, &call), block)
    })
}

#[test]
fn the_walk_pays_for_a_level_after_a_zero_and_the_cheapest_block_does_not() {
    // 12 costs 144 as 0 and 146 as 1; 32 costs 4 as 2, and 50 more after a 0
    let costs = runs(126, [0, 0, 50, 0]);
    for component in COMPONENTS {
        let [walked, least] = both_modes([12, -32, 0, 0], component, &costs);
        assert_eq!(walked, (Ok(Coded { count: 1, price: 198 << 18 }), [0, -2, 0, 0]));
        assert_eq!(least, (Ok(Coded { count: 2, price: 150 << 18 }), [1, -2, 0, 0]));
    }
}

#[test]
fn equal_prices_are_settled_by_dictionary_order() {
    // one 12 of two is worth its level, since a 0 after a 0 costs 20: the later one
    let [_, searched] = both_modes([12, 12, 32, 0], Component::Y, &runs(126, [0, 0, 0, 20]));
    assert_eq!(searched, (Ok(Coded { count: 2, price: 294 << 18 }), [0, 1, 2, 0]));
    // 12 costs 128 more as 0 than as 1, and as much for being coded: the empty block
    let mut even = runs(124, [0; 4]);
    let [_, searched] = both_modes([12, 0, 0, 0], Component::Y, &even);
    assert_eq!(searched, (Ok(Coded { count: 0, price: 144 << 18 }), [0; 4]));
    even.level[0][0] -= 1;
    let [_, searched] = both_modes([12, 0, 0, 0], Component::Y, &even);
    assert_eq!(searched, (Ok(Coded { count: 1, price: (144 << 18) - 32 }), [1, 0, 0, 0]));
    // at lambda 0, 24 costs the same as 1 and as 2, and 8 as 0 and as 1
    let mut block = [24, -8, -24, 8];
    let call = least(intra(Component::V, 1, Settings { qp: 4, lambda: 0.0 }, &FLAT));
    let coded = quantise(&mut block, &call);
    assert_eq!((coded, block), (Ok(Coded { count: 2, price: 256 << 18 }), [1, 0, -1, 0]));
}

#[test]
fn the_skip_goes_first_in_the_second_mode() {
    let mut costs = FLAT;
    let flag = [Costs::MOST, 0];
    (costs.cbf_all, costs.cbf_luma, costs.cbf_cb, costs.cbf_cr) = (flag, flag, flag, flag);
    for component in COMPONENTS {
        let [walked, searched] = both_modes([9, 0, 0, -9], component, &costs);
        assert_eq!(searched, (Ok(Coded { count: 0, price: 2 * 21_233_664 + 32 * Costs::MOST }), [0; 4]));
        assert_eq!(walked, searched);
    }
}

#[test]
fn the_second_mode_refuses_what_the_first_refuses() {
    let settings = Settings { qp: 4, lambda: 0.5 };
    let unset = Settings { qp: 63, lambda: f64::NAN };
    let wrong = Settings { qp: 64, lambda: f64::NAN };
    let mut dear = FLAT;
    dear.cbf_cr[1] = Costs::MOST + 1;
    let mut long = vec![0; 1024];
    long[0] = 29184;
    let (high, far) = (Settings { qp: 3, lambda: 8192.0 }, [16384; 1024]);
    let faults: [(&[i16], usize, Settings, &Costs, Refusal); 9] = [
        (&[20], 0, wrong, &dear, Refusal::Side),
        (&[20], 1, wrong, &dear, Refusal::Qp),
        (&[20], 1, unset, &dear, Refusal::Lambda),
        (&[20], 1, settings, &dear, Refusal::Cost),
        (&[-32768, 0, 0], 1, settings, &FLAT, Refusal::Length),
        (&[0, 0, 0, -32768, 5], 1, settings, &FLAT, Refusal::Sample),
        (&long, 5, high, &FLAT, Refusal::Level),
        (&far, 5, Settings { qp: 4, ..high }, &FLAT, Refusal::Price),
        (&far, 5, Settings { qp: 4, lambda: 0.0 }, &FLAT, Refusal::Distortion),
    ];
    for (held, log2_side, settings, costs, refusal) in faults {
        for component in COMPONENTS {
            let mut block = held.to_vec();
            let call = intra(component, log2_side, settings, costs);
            let told = refusal.is_of_a_component().then_some(component);
            let refused = quantise(&mut block, &least(call));
            assert_eq!(refused, Err(Refused { refusal, component: told }));
            assert_eq!(refused, quantise(&mut block, &call));
            assert_eq!(block, held);
        }
    }
}

#[test]
fn three_components_are_the_transform_and_the_quantiser_alone() {
    let settings =
        [Settings { qp: 20, lambda: 0.25 }, Settings { qp: 12, lambda: 0.5 }, Settings { qp: 30, lambda: 0.0 }];
    alone_is_the_same(&SubBlock { intra_coded: true, ..SubBlock::new(2, settings, &FLAT) });
}

#[test]
fn three_components_in_the_second_mode_are_that_quantiser_alone() {
    let settings =
        [Settings { qp: 16, lambda: 4.0 }, Settings { qp: 22, lambda: 4.0 }, Settings { qp: 28, lambda: 1.0 }];
    let costs = runs(60, [0, 0, 120, 50]);
    let walk = SubBlock { intra_coded: true, ..SubBlock::new(2, settings, &costs) };
    let least = SubBlock { mode: Mode::Least, ..walk };
    alone_is_the_same(&least);
    // and not the walk's, in any component
    let [walked, searched] = [walk, least].map(|call| sub_block(&mut picture(), &call).unwrap());
    assert!((0..3).all(|k| searched[k].price < walked[k].price), "{walked:?} {searched:?}");
}

/// 4×4 of Y, 2×2 of U and V, and a surplus.
fn picture() -> Vec<i16> {
    (0..30).map(|i| i * 37 % 200 - 100).collect()
}

fn alone_is_the_same(call: &SubBlock) {
    for run in 0..16 {
        let mut buffer = picture();
        let coded = sub_block(&mut buffer, &SubBlock { run, ..*call }).unwrap();
        let mut alone = picture();
        for (k, (start, side)) in [(0, 2), (16, 1), (20, 1)].into_iter().enumerate() {
            let mut expected = Coded { count: 0, price: 0 };
            if run >> k & 1 == 1 {
                let part = &mut alone[start..start + (1 << (2 * side))];
                transform(part, side, side).unwrap();
                let one = Quantise::new(COMPONENTS[k], side, call.settings[k], call.costs);
                let (intra_slice, intra_coded, mode) = (call.intra_slice, call.intra_coded, call.mode);
                expected = quantise(part, &Quantise { intra_slice, intra_coded, mode, ..one }).unwrap();
            }
            assert_eq!(coded[k], expected);
        }
        assert_eq!(buffer, alone);
    }
}

#[test]
fn nothing_is_written_before_all_have_passed() {
    for mode in [Mode::Walk, Mode::Least] {
        let mut held = vec![100; 24];
        held[20] = 1024;
        let mut buffer = held.clone();
        let settings = [Settings { qp: 4, lambda: 0.5 }; 3];
        let mut call = SubBlock { mode, intra_slice: true, ..SubBlock::new(2, settings, &FLAT) };
        let refused = sub_block(&mut buffer, &call);
        assert_eq!(refused, Err(Refused { refusal: Refusal::Sample, component: Some(Component::V) }));
        assert_eq!(buffer, held);
        call.run = SubBlock::RUN_Y | SubBlock::RUN_U;
        call.settings[2] = Settings { qp: 99, lambda: f64::NAN }; // V's, which is not run
        assert!(sub_block(&mut buffer, &call).is_ok());
        assert_eq!(buffer[20..], held[20..]);
    }
}

#[test]
fn calls_on_many_threads() {
    let costs = runs(60, [0, 0, 120, 50]);
    let call = SubBlock { mode: Mode::Least, ..SubBlock::new(2, [Settings::usual(22); 3], &costs) };
    let coded = || {
        let mut buffer = picture();
        (sub_block(&mut buffer, &call), buffer)
    };
    let alone = coded();
    std::thread::scope(|scope| {
        for _ in 0..4 {
            scope.spawn(|| (0..1000).for_each(|_| assert_eq!(coded(), alone)));
        }
    });
}

// ---- the way back

/// T_N[k][n] of N = 2^log2, by document 01's rule.
fn entry(log2: usize, k: usize, n: usize) -> i64 {
    const C: [i64; 32] = [
        64, 90, 90, 90, 89, 88, 87, 85, 84, 82, 80, 78, 75, 73, 70, 67, 64, 61, 57, 54, 50, 47, 43, 39, 35, 30, 26, 22,
        18, 13, 9, 4,
    ];
    let k = k << (5 - log2);
    let a = match (2 * n + 1) * k % 128 {
        a if a > 64 => 128 - a,
        a => a,
    };
    match a {
        _ if k == 0 => 64,
        0..32 => C[a],
        _ => -C[64 - a],
    }
}

fn clipped(value: i64) -> i16 {
    value.clamp(-32768, 32767) as i16
}

const SHAPES: [(usize, usize); 25] = {
    let (mut shapes, mut i) = ([(0, 0); 25], 0);
    while i < 25 {
        shapes[i] = (1 + i % 5, 1 + i / 5);
        i += 1;
    }
    shapes
};

#[test]
fn levels_scaled_back() {
    let levels = [0, 1, -1, 2, 3, -7, 100, -1000, 32767, -32767, -32768];
    for log2 in 1..=5 {
        for qp in 0..64 {
            let held: Vec<i16> = levels.iter().copied().cycle().take((1 << (2 * log2)) + 3).collect();
            let mut block = held.clone();
            assert_eq!(scale_back(&mut block, log2, qp), Ok(()));
            let factor = [40, 45, 51, 57, 64, 72][qp as usize % 6] << (qp / 6);
            let (scaled, surplus) = block.split_at(1 << (2 * log2));
            for (coefficient, level) in scaled.iter().zip(&held) {
                let right = (i64::from(*level) * factor + (1 << log2)) >> (1 + log2);
                assert_eq!(*coefficient, clipped(right), "side 2^{log2}, QP {qp}, level {level}");
            }
            assert_eq!(surplus, &held[1 << (2 * log2)..]);
        }
    }
}

#[test]
fn a_large_coefficient_is_clipped_and_no_level_refused() {
    let mut block = [32767, -32768, 2, -2];
    assert_eq!(scale_back(&mut block, 1, 63), Ok(()));
    assert_eq!(block, [32767, -32768, 29184, -29184]);
    for log2 in 1..=5 {
        for (level, coefficient) in [(32767, 32767), (-32768, -32768)] {
            let mut block = vec![level; 1024];
            assert_eq!(scale_back(&mut block, log2, 63), Ok(()));
            assert!(block[..1 << (2 * log2)].iter().all(|c| *c == coefficient));
        }
    }
}

/// Each pattern alone, of all shapes: coefficient (v, u) is T_h[v][y]·T_w[u][x] at (y, x), with the shape's width along
/// the row.
#[test]
fn the_inverse_of_one_coefficient() {
    for (log2_w, log2_h) in SHAPES {
        let (w, n) = (1 << log2_w, 1 << (log2_w + log2_h));
        for place in (0..n).filter(|place| place % 7 == 1 || *place < 4) {
            for value in [1, -90, 2047, 32767, -32768] {
                let mut block = vec![0; n + 2];
                (block[place], block[n], block[n + 1]) = (value, 77, -32768);
                assert_eq!(inverse(&mut block, log2_w, log2_h), Ok(()));
                let right = |i: usize| {
                    let (along, down) = (entry(log2_w, place % w, i % w), entry(log2_h, place / w, i / w));
                    clipped((along * down * i64::from(value) + (1 << 16)) >> 17)
                };
                assert!((0..n).all(|i| block[i] == right(i)), "{w} wide, {n} places: {value} at {place}");
                assert_eq!(block[n..], [77, -32768]);
            }
        }
    }
}

/// All coefficients as large as they can be, with the signs that make one sample largest or smallest.
#[test]
fn a_large_residual_is_clipped_and_no_coefficient_refused() {
    for (log2_w, log2_h) in SHAPES {
        let (w, n) = (1 << log2_w, 1usize << (log2_w + log2_h));
        let largest = |sample: usize, sign: i64| {
            let pattern = |i: usize| sign * entry(log2_w, i % w, sample % w) * entry(log2_h, i / w, sample / w);
            let mut block: Vec<i16> = (0..n).map(|i| if pattern(i) > 0 { 32767 } else { -32768 }).collect();
            let sum: i64 = (0..n).map(|i| sign * pattern(i) * i64::from(block[i])).sum();
            assert_eq!(inverse(&mut block, log2_w, log2_h), Ok(()));
            (block[sample], clipped((sum + (1 << 16)) >> 17))
        };
        for sample in [0, n / 3, n - 1] {
            for sign in [1, -1] {
                let (residual, right) = largest(sample, sign);
                assert_eq!(residual, right);
                assert_eq!(residual == 32767 || residual == -32768, n >= 64, "{w} wide, {n} places: {residual}");
            }
        }
    }
}

#[test]
fn at_side_2_the_way_back_is_exact() {
    let values = [-1023, -1022, -511, -3, -1, 0, 1, 2, 700, 1023];
    for i in 0..10_000 {
        let held = [1, 10, 100, 1000].map(|digit| values[i / digit % 10]);
        let mut block = held;
        transform(&mut block, 1, 1).unwrap();
        inverse(&mut block, 1, 1).unwrap();
        assert_eq!(block, held);
    }
}

/// With the finest steps a block comes back but for roundings: the calls undo one another, at every side.
#[test]
fn the_way_there_and_back() {
    for log2 in 1..=5 {
        let held: Vec<i16> = (0..1 << (2 * log2)).map(|i| (i * 37 % 41 - 20) as i16).collect();
        let mut block = held.clone();
        transform(&mut block, log2, log2).unwrap();
        quantise(&mut block, &intra(Component::Y, log2, Settings { qp: 0, lambda: 0.0 }, &FLAT)).unwrap();
        scale_back(&mut block, log2, 0).unwrap();
        inverse(&mut block, log2, log2).unwrap();
        let most = block.iter().zip(&held).map(|(shown, true_)| (shown - true_).abs()).max().unwrap();
        assert!(most <= 2, "side 2^{log2}: {most}");
    }
}

#[test]
fn the_way_back_refuses_in_order_and_leaves_the_block() {
    let held = [-32768, 32767, 5];
    let mut block = held;
    let told = |refusal| Err(Refused { refusal, component: None });
    for side in [0, 6, 64, usize::MAX] {
        assert_eq!(scale_back(&mut block, side, 64), told(Refusal::Side));
        assert_eq!(inverse(&mut block, side, 1), told(Refusal::Side));
        assert_eq!(inverse(&mut block, 5, side), told(Refusal::Side));
    }
    for qp in [64, 255, 256, u32::MAX] {
        assert_eq!(scale_back(&mut block, 1, qp), told(Refusal::Qp));
    }
    for side in 1..=5 {
        assert_eq!(scale_back(&mut block, side, 63), told(Refusal::Length));
        assert_eq!(inverse(&mut block, side, 1), told(Refusal::Length));
        assert_eq!(inverse(&mut block, 1, side), told(Refusal::Length));
    }
    assert_eq!(scale_back(&mut [], 1, 0), told(Refusal::Length));
    assert_eq!(inverse(&mut [], 1, 1), told(Refusal::Length));
    assert_eq!(block, held);
    let refused = scale_back(&mut block, 1, 64).unwrap_err();
    assert_eq!(refused.to_string(), "refused with 2: QP is above 63");
    // one place too few
    for (log2_w, log2_h) in SHAPES {
        let held = vec![7; (1 << (log2_w + log2_h)) - 1];
        let mut block = held.clone();
        assert_eq!(inverse(&mut block, log2_w, log2_h), told(Refusal::Length));
        assert_eq!(block, held);
    }
}

// ---- the guarded block

/// Residuals of 16×16 luma and of chroma behind it, without a period.
fn grained(amplitude: i32) -> Vec<i16> {
    let one = |i: i32| (i * i * 37 + i * 11) % (2 * amplitude + 1) - amplitude;
    (0..384).map(|i| one(i) as i16).collect()
}

fn coarse(costs: &Costs) -> SubBlock<'_> {
    let mut call = SubBlock::new(4, [40, 43, 37].map(Settings::usual), costs);
    (call.intra_slice, call.intra_coded) = (true, true);
    call
}

/// What the calls of the way back make of levels, held against the residuals.
fn extremes(residuals: &[i16], levels: &[i16], log2: usize, qp: u32) -> Extremes {
    let mut block = levels.to_vec();
    scale_back(&mut block, log2, qp).unwrap();
    inverse(&mut block, log2, log2).unwrap();
    let apart: Vec<i32> = residuals.iter().zip(&block).map(|(r, d)| i32::from(*r) - i32::from(*d)).collect();
    let most = |apart: Vec<i32>| apart.into_iter().max().unwrap().max(0) as u32;
    Extremes { darker: most(apart.clone()), lighter: most(apart.into_iter().map(|d| -d).collect()) }
}

#[test]
fn with_any_height_the_guarded_call_is_the_unguarded_one() {
    for mode in [Mode::Walk, Mode::Least] {
        for run in 0..8 {
            for (amplitude, qps) in [(3, [40, 43, 37]), (300, [40, 43, 37]), (1023, [4, 22, 63])] {
                let held = grained(amplitude);
                let call = SubBlock { mode, run, settings: qps.map(Settings::usual), ..coarse(&FLAT) };
                let (mut free, mut any) = (held.clone(), held.clone());
                let coded = sub_block(&mut free, &call).unwrap();
                let guarded = guarded_sub_block(&mut any, &call, &[Heights::ANY; 3]).unwrap();
                assert_eq!(free, any);
                assert_eq!(guarded.map(|component| component.coded), coded);
                for (k, part) in [0..256, 256..320, 320..384].into_iter().enumerate() {
                    let right = match run >> k & 1 {
                        0 => Extremes { darker: 0, lighter: 0 },
                        _ => extremes(&held[part.clone()], &any[part], 4 - (k != 0) as usize, qps[k]),
                    };
                    assert_eq!(guarded[k].extremes, right);
                }
            }
        }
    }
}

#[test]
fn every_sample_is_held_to_its_height() {
    let (held, mut call) = (grained(300), coarse(&FLAT));
    call.settings.iter_mut().for_each(|settings| settings.lambda *= 16.0);
    let mut repaired = 0;
    for darker in (0..400).step_by(9) {
        for lighter in [darker, 2 * darker, 33791] {
            let heights =
                [Heights { darker, lighter }, Heights::both(400), Heights { darker: lighter, lighter: darker }];
            let mut block = held.clone();
            match guarded_sub_block(&mut block, &call, &heights) {
                Ok(guarded) => {
                    for (k, part) in [0..256, 256..320, 320..384].into_iter().enumerate() {
                        let (log2, qp, found) = (4 - (k != 0) as usize, call.settings[k].qp, guarded[k].extremes);
                        assert_eq!(found, extremes(&held[part.clone()], &block[part.clone()], log2, qp));
                        assert_eq!(measure(&held[part.clone()], &block[part], log2, qp), Ok(found));
                        assert!(found.darker <= heights[k].darker && found.lighter <= heights[k].lighter);
                    }
                    let mut free = held.clone();
                    sub_block(&mut free, &call).unwrap();
                    repaired += (free != block) as u32;
                }
                Err(refused) => {
                    assert_eq!(refused.refusal, Refusal::Height);
                    assert_ne!(refused.component, Some(Component::U));
                    assert_eq!(block, held);
                }
            }
        }
    }
    assert!(repaired > 10, "{repaired}");
}

/// A height is asked for behind all else of its component, and before what only the next one's coefficients show.
#[test]
fn a_height_is_refused_in_its_place() {
    let none = [Heights::both(0); 3];
    let costs = Costs::equal(1_048_576);
    let far = [Settings::usual(50); 3];
    let dear = Settings { qp: 0, lambda: 8192.0 };
    let told = |settings: [Settings; 3], costs, amplitude, log2_luma| {
        let call = SubBlock { settings, costs, log2_luma, ..coarse(costs) };
        let mut block = grained(amplitude);
        if log2_luma == 5 {
            block = vec![1023; 1536];
        }
        let held = block.clone();
        let refused = guarded_sub_block(&mut block, &call, &none).unwrap_err();
        assert_eq!(block, held);
        (refused.refusal, refused.component)
    };
    assert_eq!(told(far, &FLAT, 300, 4), (Refusal::Height, Some(Component::Y)));
    assert_eq!(told(far, &FLAT, 1024, 4), (Refusal::Sample, Some(Component::Y)));
    // flat luma of side 32 comes back exactly at QP 4, and not at 40; 7 comes before that, and 8 of chroma behind it
    let luma = |qp| [Settings { qp, lambda: 0.0 }, dear, dear];
    assert_eq!(told([dear; 3], &costs, 300, 5), (Refusal::Level, Some(Component::Y)));
    assert_eq!(told(luma(4), &FLAT, 300, 5), (Refusal::Price, Some(Component::U)));
    assert_eq!(told(luma(40), &FLAT, 300, 5), (Refusal::Height, Some(Component::Y)));
    let refused = guarded_sub_block(&mut grained(300), &coarse(&FLAT), &none).unwrap_err();
    assert_eq!(
        refused.to_string(),
        "refused with 15 in Y: no levels of this block bring every sample within the heights"
    );
}

#[test]
fn measuring_refuses_in_order() {
    let told = |refusal| Err(Refused { refusal, component: None });
    for side in [0, 6, 64, usize::MAX] {
        assert_eq!(measure(&[], &[], side, 64), told(Refusal::Side));
    }
    assert_eq!(measure(&[], &[], 1, 64), told(Refusal::Qp));
    for side in 1..=5 {
        let n = 1 << (2 * side);
        let (long, short) = (vec![7; n], vec![7; n - 1]);
        assert_eq!(measure(&long, &short, side, 63), told(Refusal::Length));
        assert_eq!(measure(&short, &long, side, 63), told(Refusal::Length));
        assert!(measure(&long, &long, side, 63).is_ok());
    }
    // no sample is refused, and what lies behind a block is not looked at
    let most = Extremes { darker: 0, lighter: 65535 };
    assert_eq!(measure(&[-32768, -32768, -32768, -32768, 5], &[0, 0, 0, 0, 9], 1, 63).unwrap().lighter, 32768);
    assert!(measure(&[-32768; 64], &[32767; 64], 3, 63).unwrap().lighter <= most.lighter);
}
