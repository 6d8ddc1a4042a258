//! Who need not keep the conditions of a family passes more throws than the bound, and the check
//! says which one he broke.

use super::*;
use paddockyear_tests::boards::Layout;
use paddockyear_tests::reference::judge::Fault;
use paddockyear_tests::reference::terms::lists_of;
use paddockyear_tests::reference::writer::Secrets;

/// Somebody of whose lists these are false in every place: all but those of the mask.
fn false_but(random: &mut Random, parameters: Parameters, mask: u32) -> Poster {
    let mut poster = cheat(random, parameters);
    let ballots = any_order(random, parameters.ballots());
    falsify(random, &mut poster, &ballots, mask);
    poster
}

/// Every throw is answered with a result that is false in all places, although c fits.
#[track_caller]
fn passes_more(answers: &Answers, c: &[u32]) {
    let Parameters { n, m, .. } = answers.parameters;
    assert!(answers.fits(c));
    for k in 1..=n as usize {
        assert_eq!(answers.differing(k, c), choices(m) << n);
        assert!(answers.differing(k, c) > bound(m, n as usize, k));
    }
}

/// All lists are false, and every t is told when the sides are known.
#[test]
fn links_that_know_the_sides() {
    let random = &mut Random::new(810);
    for parameters in elections(3, 2) {
        let poster = false_but(random, parameters, 0);
        let plan = |throw: &Throw| Some(poster.plan(throw.mask, &throw.sides));
        let answers = Answers::of(parameters, poster.answering(plan), judged);
        passes_more(&answers, &poster.committed());
        assert_eq!(answers.broken(), Some(Condition::Links));
        assert!(!answers.opened_twice());
    }
}

/// One throw whose links know its side is one more than the bound allows.
#[test]
fn one_link_that_knows_the_sides() {
    let random = &mut Random::new(811);
    for form in FORMS {
        let parameters = Parameters { form, modulus: 9, n: 1, m: 1 };
        let poster = false_but(random, parameters, 0);
        let plan = |throw: &Throw| {
            let sides = if throw.mask == 1 { &throw.sides } else { &poster.guesses };
            Some(poster.plan(throw.mask, sides))
        };
        let answers = Answers::of(parameters, poster.answering(plan), judged);
        assert_eq!(answers.differing(1, &poster.committed()), bound(1, 1, 1) + 1);
        assert_eq!(answers.broken(), Some(Condition::Links));
    }
}

/// The same ballots, and lists that are made when the mask is known.
#[test]
fn lists_that_know_the_mask() {
    let random = &mut Random::new(812);
    for parameters in elections(3, 2) {
        let honest = cheat(random, parameters);
        let ballots = any_order(random, parameters.ballots());
        let mut falsified = |mask| {
            let mut poster = honest.clone();
            falsify(random, &mut poster, &ballots, mask);
            (mask, poster)
        };
        let posters: Vec<(u32, Poster)> =
            masks(parameters.m).into_iter().map(&mut falsified).collect();
        let answer = |throw: &Throw| {
            let (_, poster) = posters.iter().find(|(mask, _)| *mask == throw.mask).unwrap();
            poster.guessing()(throw)
        };
        let answers = Answers::of(parameters, answer, judged);
        passes_more(&answers, &honest.committed());
        assert_eq!(answers.broken(), Some(Condition::Posted));
    }
}

/// Another mask than the thrown one: the one for which all was made.
#[test]
fn a_mask_of_his_own() {
    let random = &mut Random::new(813);
    for parameters in elections(3, 2) {
        let mask = random.mask(parameters.m);
        let poster = false_but(random, parameters, mask);
        let answer = poster.guessing();
        let his_own = |throw: &Throw| answer(&Throw { mask, ..throw.clone() });
        let answers = Answers::of(parameters, his_own, judged);
        passes_more(&answers, &poster.committed());
        assert_eq!(answers.broken(), Some(Condition::Mask));
    }
}

/// Other sides than the thrown ones: those on which all fits. No ballot's vote is shown.
#[test]
fn sides_of_his_own() {
    let random = &mut Random::new(814);
    for parameters in elections(3, 2) {
        let poster = false_but(random, parameters, 0);
        let answer = poster.guessing();
        let sides = || poster.guesses.clone();
        let his_own = |throw: &Throw| answer(&Throw { sides: sides(), ..throw.clone() });
        let answers = Answers::of(parameters, his_own, judged);
        passes_more(&answers, &poster.committed());
        assert_eq!(answers.broken(), Some(Condition::Sides));
        assert!(answers.committed().iter().all(Option::is_none));
    }
}

/// A judge who lets full openings stand that do not give their commitments: lists are true where
/// they are compared, and false where they are opened.
#[test]
fn places_opened_in_two_ways() {
    let random = &mut Random::new(815);
    for parameters in elections(3, 2) {
        let honest = cheat(random, parameters);
        let mut other = honest.clone();
        let ballots = any_order(random, parameters.ballots());
        falsify(random, &mut other, &ballots, 0);
        let posted = honest.secrets.part_one();
        let answer = |throw: &Throw| {
            let mut lists = honest.secrets.lists.clone();
            for list in lists_of(parameters.m, throw.mask, false) {
                lists[list] = other.secrets.lists[list].clone();
            }
            let secrets = Secrets { lists, ..honest.secrets.clone() };
            let poster = Poster { secrets, ..honest.clone() };
            Some(poster.record(&posted, throw, poster.plan(throw.mask, &throw.sides)))
        };
        let opened = Layout::new(&parameters).full_opening(0, 0);
        let lax = |record: &[u8]| match judge(record, Judging::Plain) {
            Err(Fault { number: 13, place }) if place >= opened => Some(other.values(0)),
            _ => None,
        };
        let answers = Answers::of(parameters, answer, lax);
        passes_more(&answers, &honest.committed());
        assert_eq!(answers.broken(), None);
        assert!(answers.opened_twice());
        assert!(Answers::of(parameters, answer, judged).accepted.is_empty());
    }
}

/// Honest answers beside votes that are not those shown: one place or all.
#[test]
fn votes_that_do_not_fit() {
    let random = &mut Random::new(816);
    for parameters in elections(3, 2) {
        let (n, m) = (parameters.ballots(), parameters.m);
        let poster = cheat(random, parameters);
        let answers = family(parameters, poster.guessing());
        let mut votes = poster.committed();
        for (changed, j) in (1..).zip(any_order(random, n)) {
            votes[j] = high_vote(random, parameters.modulus);
            assert!(!answers.fits(&votes));
            let counts: Vec<u64> = (0..=n).map(|k| answers.differing(k, &votes)).collect();
            assert_eq!(counts, steps(n, choices(m) << n, &[(changed, choices(m) << n)]));
        }
    }
}

/// The honest servers' answers with other dice for each throw.
fn with_dice(parameters: Parameters, dice: impl Fn(&Throw) -> [Vec<u8>; 2]) -> Option<Condition> {
    let random = &mut Random::new(817);
    let poster = cheat(random, parameters);
    let answer = |throw: &Throw| Poster { dice: dice(throw), ..poster.clone() }.guessing()(throw);
    let answers = Answers::of(parameters, answer, judged);
    assert_eq!(answers.accepted.len() as u64, choices(parameters.m) << parameters.n);
    answers.broken()
}

/// The first dice may go with the mask, but not with the sides; the second with either.
#[test]
fn dice_of_a_family() {
    let thrown = |face: u32| vec![b'1' + (face % 6) as u8; 30];
    let sides =
        |throw: &Throw| throw.sides.iter().fold(0, |bits, side| 2 * bits + u32::from(*side));
    for parameters in elections(2, 2) {
        let found = with_dice(parameters, |throw| [thrown(throw.mask), thrown(sides(throw))]);
        assert_eq!(found, None);
        let found = with_dice(parameters, |throw| [thrown(sides(throw)), thrown(0)]);
        assert_eq!(found, Some(Condition::Links));
    }
}

/// What is refused is no answer: its bytes are free.
#[test]
fn refused_answers() {
    let random = &mut Random::new(818);
    for parameters in elections(3, 2) {
        let [poster, other] = [0, 1].map(|_| cheat(random, parameters));
        let (answer, another) = (poster.guessing(), other.guessing());
        let cut = |throw: &Throw| {
            let mut record = if throw.sides[0] == 0 { answer(throw)? } else { another(throw)? };
            record.truncate(record.len() - usize::from(throw.sides[0]));
            Some(record)
        };
        let answers = family(parameters, cut);
        let passed = choices(parameters.m) << (parameters.n - 1);
        assert_eq!(answers.committed()[0], None);
        let counts = differing(&answers, &poster.committed());
        assert_eq!(counts, steps(parameters.ballots(), passed, &[]));
    }
}
