//! The draw of the mask.

use std::collections::BTreeSet;

use super::run;
use crate::subject::mask_entry;
use paddockyear_tests::boards::calls::draw::DrawCall;
use paddockyear_tests::boards::calls::misuse::{
    check_each, check_pairs, misuse_at_random, LIMITS_OF_N,
};
use paddockyear_tests::boards::calls::parts::PartCall;
use paddockyear_tests::boards::{form, modulus, parameters, BOTH, ELECTIONS, FORMS, MANY};
use paddockyear_tests::random::Random;
use paddockyear_tests::reference::terms::{mask_stands, Form, Parameters};
use paddockyear_tests::reference::writer::mask_of;

fn draw(call: &DrawCall) -> Result<u32, u8> {
    mask_entry(&call.parameters, &call.dice, &call.part_one)
}

fn answer(call: DrawCall) -> u8 {
    draw(&call).map_or_else(|number| number, |_| 0)
}

/// It is the mask that part two draws from the same dice and the same part one.
fn part_two_draws_it(random: &mut Random, form: Form, n: u32, m: u32) {
    let modulus = modulus(random);
    let mut two = PartCall::honest(random, Parameters { form, modulus, n, m }, (2, BOTH));
    run(&mut two).unwrap();
    let mask = mask_entry(&two.inputs.parameters, &two.dice, &two.part_one).unwrap();
    assert_eq!(mask, mask_of(&two.out));
    assert!(mask_stands(m, mask));
}

#[test]
fn part_two_draws_the_same() {
    let random = &mut Random::new(220);
    for m in 1..=12 {
        for _ in 0..12 {
            let (form, n) = (form(random), 1 + random.number(9));
            part_two_draws_it(random, form, n, m);
        }
    }
}

#[test]
fn part_two_draws_the_same_of_many_ballots() {
    let random = &mut Random::new(275);
    for n in MANY {
        part_two_draws_it(random, Form::Unnumbered, n, 3);
    }
    part_two_draws_it(random, Form::Numbered(257), 257, 3);
}

/// Another byte of part one, or another die, makes another mask; another modulus does not, nor
/// does another election's number.
#[test]
fn what_counts() {
    let random = &mut Random::new(221);
    for form in FORMS {
        what_counts_in(random, Parameters { form, modulus: 100, n: 3, m: 12 });
    }
    let call = DrawCall::honest(random, Parameters::numbered(1, 100, 3, 12));
    for election in ELECTIONS {
        let parameters = Parameters { form: Form::Numbered(election), ..call.parameters };
        assert_eq!(draw(&DrawCall { parameters, ..call.clone() }), draw(&call));
    }
}

fn what_counts_in(random: &mut Random, parameters: Parameters) {
    let call = DrawCall::honest(random, parameters);
    let mask = draw(&call);
    for place in (0..12).chain([1000, call.part_one.len() - 1]) {
        let mut other = call.clone();
        other.part_one[place] ^= 1;
        assert_ne!(draw(&other), mask);
    }
    for die in 0..30 {
        let mut other = call.clone();
        other.dice[die] = if other.dice[die] == b'1' { b'6' } else { b'1' };
        assert_ne!(draw(&other), mask);
    }
    let other = DrawCall { parameters: Parameters { modulus: 2, ..parameters }, ..call };
    assert_eq!(draw(&other), mask);
}

#[test]
fn refusals() {
    let random = &mut Random::new(222);
    for (n, m) in [(1, 1), (3, 2), (4, 12), (1024, 12), (4096, 1)] {
        check_each(&DrawCall::honest(random, Parameters::unnumbered(100, n, m)), answer);
    }
    for (form, (n, m)) in FORMS.into_iter().flat_map(|form| [(1, 1), (3, 2)].map(|s| (form, s))) {
        let call = DrawCall::honest(random, Parameters { form, modulus: 100, n, m });
        check_each(&call, answer);
        check_pairs(&call, answer);
    }
    let mut answers = BTreeSet::new();
    for _ in 0..500 {
        let parameters = parameters(random, 6, 12);
        let mut call = DrawCall::honest(random, parameters);
        misuse_at_random(random, &mut call);
        answers.insert(answer(call));
    }
    assert_eq!(answers, BTreeSet::from([0, 3, 6, 18]));
}

/// The limits' last accepted and first refused values, part one being as long as they ask for.
#[test]
fn limits() {
    let random = &mut Random::new(223);
    for (modulus, n, m, number) in [
        (2, 1, 1, 0),
        (u32::MAX, 1025, 1, 0),
        (u32::MAX, 4096, 1, 0),
        (2, 1024, 12, 0),
        (1, 1, 1, 3),
        (0, 1, 1, 3),
        (2, 0, 1, 3),
        (2, 4097, 1, 3),
        (2, 1, 0, 3),
        (2, 1, 13, 3),
    ] {
        let call = DrawCall::honest(random, Parameters::unnumbered(modulus, n, m));
        assert_eq!(answer(call), number, "{modulus} {n} {m}");
    }
    for (modulus, n, m, number) in [
        (2, 1, 1, 0),
        (u32::MAX, 1, 12, 0),
        (1, 1, 1, 3),
        (2, 0, 1, 3),
        (2, 4097, 1, 3),
        (2, 1, 0, 3),
        (2, 1, 13, 3),
    ] {
        for election in ELECTIONS {
            let parameters = Parameters::numbered(election, modulus, n, m);
            assert_eq!(answer(DrawCall::honest(random, parameters)), number, "{parameters:?}");
        }
    }
}

/// Before 18.
#[test]
fn limits_of_n() {
    let random = &mut Random::new(276);
    for form in FORMS {
        let call = DrawCall::honest(random, Parameters { form, modulus: 9, n: 3, m: 1 });
        for (n, number) in LIMITS_OF_N {
            let parameters = Parameters { n, ..call.parameters };
            assert_eq!(answer(DrawCall { parameters, ..call.clone() }), number, "n = {n}");
        }
    }
}

/// The longest part one that a mask is drawn on.
#[test]
fn longest_of_many_ballots() {
    let call = DrawCall::honest(&mut Random::new(277), Parameters::unnumbered(2, 4096, 12));
    assert_eq!(call.part_one.len(), 20_074_504);
    assert_eq!(answer(call), 0);
}

#[test]
fn longest_of_many_ballots_numbered() {
    let parameters = Parameters::numbered(0, 2, 4096, 12);
    let call = DrawCall::honest(&mut Random::new(279), parameters);
    assert_eq!(call.part_one.len(), 20_074_508);
    assert_eq!(answer(call.clone()), 0);
    let told = DrawCall { parameters: Parameters::unnumbered(2, 4096, 12), ..call };
    assert_eq!(answer(told), 18);
}

#[test]
fn dice() {
    let random = &mut Random::new(224);
    let call = DrawCall::honest(random, Parameters::unnumbered(9, 2, 1));
    for die in 0..30 {
        for character in 0..=255 {
            let mut call = call.clone();
            call.dice[die] = character;
            let fair = (b'1'..=b'6').contains(&character);
            assert_eq!(answer(call), if fair { 0 } else { 6 }, "die {die}: {character}");
        }
    }
}
