//! Three parts form one record: what was given stands in it, and it is accepted.

use super::run;
use crate::subject::{part_one, part_three, part_two};
use paddockyear_tests::boards::calls::parts::{PartCall, KINDS};
use paddockyear_tests::boards::*;
use paddockyear_tests::random::Random;
use paddockyear_tests::reference::drawing::{drawn_mask, drawn_sides, seed};
use paddockyear_tests::reference::judge::{judge, Judging};
use paddockyear_tests::reference::terms::{sorted, Form, Parameters};
use paddockyear_tests::reference::writer::{mask_of, Inputs, MaskSource, SidesSource};

/// Writes the parts into noise, each draw made on those written before, and judges their join.
fn check(random: &mut Random, inputs: &Inputs, draws: Draws) {
    let Parameters { n, m, .. } = inputs.parameters;
    let [mut one, mut two, mut three] =
        inputs.parameters.part_lengths().map(|length| random.bytes(length));
    let dice = [random.dice(), random.dice()];
    let (mask, sides) = (random.mask(m), random.sides(n as usize));

    part_one(inputs, &mut one).unwrap();
    let drawn = MaskSource::Drawn { part_one: &one };
    let source = if draws.mask { drawn } else { MaskSource::Given(mask) };
    part_two(inputs, &dice[0], source, &mut two).unwrap();
    assert_eq!(two[1..31], dice[0]);
    assert!(draws.mask || mask_of(&two) == mask);

    let drawn = SidesSource::Drawn { part_one: &one, part_two: &two };
    let source = if draws.sides { drawn } else { SidesSource::Given(&sides) };
    part_three(inputs, &dice[1], mask_of(&two), source, &mut three).unwrap();
    assert_eq!(three[1..31], dice[1]);

    let record = [one, two, three].concat();
    let layout = Layout::new(&inputs.parameters);
    let posted: Vec<u8> = (0..n as usize).map(|j| record[layout.ballot_half(j) + 3]).collect();
    assert!(draws.sides || posted == sides);
    let votes = sorted(&inputs.votes);
    assert_eq!(judge(&record, Judging::Plain), Ok(votes.clone()), "{:?}", inputs.parameters);
    if draws == BOTH {
        assert_eq!(judge(&record, Judging::Drawn), Ok(votes), "{:?}", inputs.parameters);
    }
}

fn check_shape(random: &mut Random, form: Form, (n, m): (u32, u32), draws: Draws) {
    let modulus = modulus(random);
    let inputs = inputs(random, Parameters { form, modulus, n, m });
    check(random, &inputs, draws);
}

#[test]
fn of_up_to_40_ballots() {
    let random = &mut Random::new(200);
    for n in 1..=40 {
        for draws in ALL_DRAWS {
            let (form, m) = (form(random), 1 + random.number(12));
            check_shape(random, form, (n, m), draws);
        }
    }
}

/// Every m with every modulus at the limits.
#[test]
fn of_every_number_of_lists() {
    let random = &mut Random::new(201);
    for m in 1..=12 {
        for modulus in MODULI {
            for (form, draws) in FORMS.into_iter().cycle().zip(ALL_DRAWS) {
                let n = 1 + random.number(6);
                let inputs = inputs(random, Parameters { form, modulus, n, m });
                check(random, &inputs, draws);
            }
        }
    }
}

/// Indices above a byte, ballot numbers of three and four digits, and the largest record.
#[test]
fn of_many_ballots() {
    let random = &mut Random::new(202);
    for n in MANY.into_iter().chain([1000, 1024]) {
        for draws in [NEITHER, BOTH] {
            check_shape(random, Form::Unnumbered, (n, 1), draws);
        }
    }
    check_shape(random, Form::Unnumbered, (4096, 12), BOTH);
}

#[test]
fn of_many_ballots_numbered() {
    let random = &mut Random::new(208);
    check_shape(random, Form::Numbered(1), (257, 2), NEITHER);
    check_shape(random, Form::Numbered(u32::MAX), (4096, 1), BOTH);
}

/// Numbers at both ends of their range, so that sums wrap or just do not.
#[test]
fn of_numbers_at_the_limits() {
    let random = &mut Random::new(203);
    for modulus in MODULI {
        for draws in ALL_DRAWS {
            let form = form(random);
            let mut inputs = inputs(random, Parameters { form, modulus, n: 9, m: 2 });
            let ends = [0, 1, modulus - 2, modulus - 1];
            inputs.votes.iter_mut().for_each(|vote| *vote = random.pick(&ends));
            inputs.numbers.iter_mut().for_each(|number| *number = random.pick(&ends));
            check(random, &inputs, draws);
        }
    }
}

/// Ids at both ends, votes all alike, nothing mixed and nothing hidden. Only keys tell the ballots
/// apart, and a ballot has one key.
#[test]
fn of_inputs_at_the_limits() {
    let random = &mut Random::new(204);
    for (form, draws) in FORMS.into_iter().flat_map(|form| ALL_DRAWS.map(|draws| (form, draws))) {
        let mut inputs = still_inputs(random, Parameters { form, modulus: 2, n: 5, m: 3 });
        check(random, &inputs, draws);
        inputs.ids = vec![0, 1, 1 << 16, u32::MAX - 1, u32::MAX];
        for (six, key) in inputs.keys.chunks_mut(192).zip((0..5).chain([0].into_iter().cycle())) {
            six.fill(key);
        }
        check(random, &inputs, draws);
        inputs.votes.fill(1);
        inputs.numbers.fill(1);
        inputs.keys.iter_mut().for_each(|byte| *byte = !*byte);
        inputs.permutations.chunks_mut(5).for_each(<[u16]>::reverse);
        check(random, &inputs, draws);
    }
}

/// What a buffer held does not matter.
#[test]
fn buffers_as_found() {
    let random = &mut Random::new(205);
    for kind in KINDS {
        for _ in 0..10 {
            let parameters = parameters(random, 6, 3);
            let call = PartCall::honest(random, parameters, kind);
            let written = [0x00, 0xFF].map(|found| {
                let mut call = call.clone();
                call.out.fill(found);
                run(&mut call).unwrap();
                call.out
            });
            assert_eq!(written[0], written[1]);
        }
    }
}

/// Drawn on any bytes, parts two and three are those with the drawn mask and sides given.
#[test]
fn lent_parts_are_hashed_as_lent() {
    let random = &mut Random::new(206);
    for _ in 0..40 {
        let parameters = parameters(random, 20, 6);
        for part in [2, 3] {
            let mut drawn = PartCall::honest(random, parameters, (part, BOTH));
            let mut given = PartCall { draws: NEITHER, ..drawn.clone() };
            let (one, two) = (&drawn.part_one[..], &drawn.part_two[..]);
            match part {
                2 => given.mask = drawn_mask(parameters.m, &seed(&drawn.dice, one)),
                _ => {
                    let seed = seed(&drawn.dice, &[one, two].concat());
                    given.sides = drawn_sides(parameters.ballots(), &seed);
                }
            }
            assert_eq!((run(&mut drawn), run(&mut given)), (Ok(()), Ok(())));
            assert_eq!(drawn.out, given.out);
        }
    }
}

/// Any other byte in a lent part makes another draw, the first as much as the last.
#[test]
fn every_lent_byte_counts() {
    let random = &mut Random::new(207);
    let parts = FORMS.into_iter().flat_map(|form| [2, 3].map(|part| (form, part)));
    for (form, part) in parts {
        let parameters = Parameters { form, modulus: 100, n: 40, m: 12 };
        let mut call = PartCall::honest(random, parameters, (part, BOTH));
        run(&mut call).unwrap();
        let [one, two] = [call.part_one.len(), call.part_two.len()];
        for place in (0..12).chain([one / 2, one - 1]) {
            let mut other = call.clone();
            other.part_one[place] ^= 0x10;
            run(&mut other).unwrap();
            assert_ne!(other.out, call.out);
        }
        for place in [0, 31, two / 2, two - 1] {
            let mut other = call.clone();
            other.part_two[place] ^= 0x10;
            run(&mut other).unwrap();
            assert_eq!(other.out == call.out, part == 2);
        }
    }
}
