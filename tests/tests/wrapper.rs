//! An election with the wrapper, from the tablets to the tally.

use paddockyear_tests::boards::{board_with_dice, form, inputs, modulus, BOTH};
use paddockyear_tests::random::Random;
use paddockyear_tests::reference::calendar::Date;
use paddockyear_tests::reference::terms::{Form, Parameters};
use paddockyear_tests::reference::writer::Inputs;
use paddockyear_tests::wrapper::*;

const M: u32 = 1000;
const FORMS: [Form; 2] = [Form::Unnumbered, Form::Numbered(4_000_000_000)];

fn keys(random: &mut Random) -> [Key; 6] {
    std::array::from_fn(|_| random.bytes(32).try_into().unwrap())
}

/// Six votes, with ids that do not follow each other.
fn ballots(random: &mut Random) -> Vec<Ballot> {
    let cast = [(17, 5), (40, 2), (41, 5), (1_000, 999), (70_000, 0), (u32::MAX, 5)];
    cast.map(|(id, vote)| Ballot {
        id,
        vote,
        shares: std::array::from_fn(|_| random.number(M)),
        first_halves: std::array::from_fn(|_| random.number(M)),
        keys: keys(random),
    })
    .to_vec()
}

fn list(random: &mut Random, n: usize) -> List {
    let column = |random: &mut Random| Column {
        offsets: (0..n).map(|_| [random.number(M), random.number(M)]).collect(),
        permutation: random.permutation(n),
    };
    List {
        columns: [column(random), column(random), column(random)],
        first_halves: (0..n).map(|_| std::array::from_fn(|_| random.number(M))).collect(),
        keys: (0..n).map(|_| keys(random)).collect(),
    }
}

fn election(random: &mut Random, form: Form) -> Election {
    let ballots = ballots(random);
    let lists = (0..6).map(|_| list(random, ballots.len())).collect();
    Election { form, modulus: M, ballots, lists }
}

fn drawn(random: &mut Random) -> Throws {
    Throws { first: random.dice(), mask: None, second: random.dice(), sides: None }
}

#[test]
fn from_the_tablets_to_the_tally() {
    let random = &mut Random::new(240);
    for (form, first) in FORMS.into_iter().zip([8, 12]) {
        let election = election(random, form);
        let posted = elect(&election, &drawn(random)).unwrap();
        check_election(&election, &posted, first);
    }
}

/// The ballots stand behind the first command, of so many bytes.
fn check_election(election: &Election, posted: &Posted, first: usize) {
    let cast: Vec<(Command, Receipt)> =
        election.ballots.iter().map(|ballot| cast(election.form, M, ballot).unwrap()).collect();
    let Posted { parts, record } = posted;
    assert_eq!(*record, parts.concat());

    let commands: Vec<u8> = cast.iter().flat_map(|(command, _)| command.0).collect();
    assert_eq!(parts[0][first..first + 197 * 6], commands);
    for (j, (_, receipt)) in cast.iter().enumerate() {
        assert_eq!(check_receipt(record, receipt), Ok(Found::AsPrinted));
        assert_eq!(check_receipt(&parts[0], receipt), Ok(Found::AsPrinted));
        assert_eq!(look_up(record, receipt), Ok(Found::AsPrinted));
        assert_eq!(look_up(&parts[0][..first + 197 * (j + 1)], receipt), Ok(Found::AsPrinted));
    }
    let mut other = cast[2].1;
    other.0[31] ^= 1;
    assert_eq!(check_receipt(record, &other), Ok(Found::Otherwise));
    assert_eq!(look_up(record, &other), Ok(Found::Otherwise));
    other.0[3] += 1;
    assert_eq!(check_receipt(record, &other), Ok(Found::NotPosted));
    assert_eq!(look_up(record, &other), Ok(Found::NotPosted));

    assert_eq!((judge(record, false), judge(record, true)), (Ok(()), Ok(())));
    assert_eq!(announced_votes(record), Ok(vec![0, 2, 5, 5, 5, 999]));
    assert_eq!(tally(record), Ok(vec![(0, 1), (2, 1), (5, 3), (999, 1)]));
}

/// Two elections in one evening, of the same ballots: in part one they share all but the first
/// command and the commitments, and what they open is the same. No receipt is of both.
#[test]
fn two_numbers() {
    let random = &mut Random::new(248);
    let one = election(random, Form::Numbered(1));
    let two = Election { form: Form::Numbered(2), ..one.clone() };
    let throws = drawn(random);
    let receipts = [&one, &two].map(|of| cast(of.form, M, &of.ballots[3]).unwrap().1);
    let [one, two] = [one, two].map(|election| elect(&election, &throws).unwrap());
    assert_eq!(one.record[..12], [0x0C, 0, 0, 0, 1, 0, 0, 3, 0xE8, 0, 6, 3]);
    assert_eq!(two.record[..12], [0x0C, 0, 0, 0, 2, 0, 0, 3, 0xE8, 0, 6, 3]);
    assert_eq!(one.parts[0][12..17], two.parts[0][12..17]);
    assert!((0..6)
        .all(|slot| one.parts[0][17 + 32 * slot..][..32] != two.parts[0][17 + 32 * slot..][..32]));
    assert_eq!(tally(&one.record), tally(&two.record));
    for (posted, found) in
        [(&one, [Found::AsPrinted, Found::Otherwise]), (&two, [Found::Otherwise, Found::AsPrinted])]
    {
        assert_eq!(receipts.map(|receipt| check_receipt(&posted.record, &receipt).unwrap()), found);
    }
    let mixed = [&one.parts[0][..], &two.parts[1], &two.parts[2]].concat();
    assert_eq!(judge(&mixed, false), Ok(()));
    assert!(matches!(judge(&mixed, true), Err(Refusal(8 | 12))), "mask or sides");
    let renumbered = [&one.record[..4], &[2], &one.record[5..]].concat();
    assert_eq!(judge(&renumbered, false), Err(Refusal(13)));
}

/// A given mask and given sides are taken; only plain judging has to accept them.
#[test]
fn given_mask_and_sides() {
    let random = &mut Random::new(241);
    let election = election(random, FORMS[1]);
    let throws = Throws { sides: Some(vec![1, 0, 0, 1, 1, 0]), ..drawn(random) };
    for mask in [0b000111, 0b111000, 0b010101] {
        let throws = Throws { mask: Some(mask), ..throws.clone() };
        let posted = elect(&election, &throws).unwrap();
        assert_eq!(posted.parts[1][31..35], mask.to_be_bytes());
        let side = |ballot: usize| posted.parts[2][31 + 448 * ballot + 3];
        assert_eq!((0..6).map(side).collect::<Vec<u8>>(), [1, 0, 0, 1, 1, 0]);
        assert_eq!(judge(&posted.record, false), Ok(()));
        assert_eq!(tally(&posted.record).unwrap().len(), 4);
    }
}

#[test]
fn refused_ballots() {
    let random = &mut Random::new(242);
    let ballot = ballots(random).remove(0);
    let too_large = Ballot { vote: M, ..ballot.clone() };
    for form in FORMS {
        assert_eq!(cast(form, M, &too_large), Err(Refusal(10)));
        assert!(cast(form, M + 1, &too_large).is_ok());
        assert_eq!(cast(form, 1, &ballot), Err(Refusal(3)));
    }
    assert_eq!(Refusal(3).to_string(), "rule 3: M, n or m outside its limits");
    assert_eq!(Refusal(19).to_string(), "rule 19: a permutation that is none");
    let candidates = "rule 20: the number of candidates outside 1 to 9";
    assert_eq!(Refusal(20).to_string(), candidates);
    let copied = "rule 21: a ballot with a commitment equal to one of an earlier ballot, at whichever places";
    assert_eq!(Refusal(21).to_string(), copied);
    let day = "rule 22: a day that does not exist in 2000 to 2199, or a holiday not after the one before it";
    assert_eq!(Refusal(22).to_string(), day);
    assert_eq!(Refusal(23).to_string(), "rule 23: no such rule");
}

#[test]
fn refused_elections() {
    let random = &mut Random::new(243);
    for form in FORMS {
        check_refused_elections(random, form);
    }
}

fn check_refused_elections(random: &mut Random, form: Form) {
    let (honest, throws) = (election(random, form), drawn(random));
    let refused = |change: fn(&mut Election, &mut Throws)| {
        let (mut election, mut throws) = (honest.clone(), throws.clone());
        change(&mut election, &mut throws);
        elect(&election, &throws).map_or_else(|Refusal(number)| number, |_| 0)
    };
    assert_eq!(refused(|_, _| ()), 0);
    assert_eq!(refused(|election, _| election.ballots.clear()), 3);
    assert_eq!(refused(|election, _| election.lists.truncate(1)), 3);
    assert_eq!(refused(|election, _| election.lists.truncate(5)), 18);
    assert_eq!(refused(|election, _| election.lists[5].first_halves.truncate(5)), 18);
    assert_eq!(refused(|election, _| election.ballots.swap(0, 1)), 5);
    assert_eq!(refused(|_, throws| throws.first[0] = b'7'), 6);
    assert_eq!(refused(|_, throws| throws.mask = Some(0b1111)), 7);
    assert_eq!(refused(|election, _| election.lists[0].columns[2].offsets[5][1] = M), 10);
    assert_eq!(refused(|_, throws| throws.sides = Some(vec![2; 6])), 11);
    assert_eq!(refused(|_, throws| throws.sides = Some(vec![0; 5])), 18);
    assert_eq!(refused(|election, _| election.lists[1].columns[0].permutation[0] = 6), 19);
    let again = refused(|election, _| cast_again(&mut election.ballots));
    assert_eq!(again, if form == Form::Unnumbered { 21 } else { 0 });
    let both = |election: &mut Election, throws: &mut Throws| {
        cast_again(&mut election.ballots);
        throws.sides = Some(vec![2; 6]);
    };
    assert_eq!(refused(both), 11);
}

/// The last member casts the second's ballot; the tablet does not know the others. With 0C its id
/// makes other commitments of it.
fn cast_again(ballots: &mut [Ballot]) {
    let id = ballots[5].id;
    ballots[5] = Ballot { id, ..ballots[1].clone() };
    assert!(cast(FORMS[0], M, &ballots[5]).is_ok());
}

#[test]
fn refused_records() {
    let random = &mut Random::new(244);
    let election = election(random, FORMS[1]);
    let mut record = elect(&election, &drawn(random)).unwrap().record;
    let end = record.len() - 1;
    assert_eq!(announced_votes(&record[..end]), Err(Refusal(1)));
    assert_eq!((tally(&[]), judge(&[], true)), (Err(Refusal(1)), Err(Refusal(1))));
    let receipt = Receipt(record[..32].try_into().unwrap());
    assert_eq!(check_receipt(&record[..1000], &receipt), Err(Refusal(1)));
    assert_eq!(look_up(&record[..1000], &receipt), Err(Refusal(1)));
    record[end - 1] ^= 1;
    assert_eq!(tally(&record), Err(Refusal(13)));
}

/// A vote for each of four candidates: 4 leaves, then 2, then 3, who has as many as 1.
#[test]
fn ranked_votes() {
    let random = &mut Random::new(246);
    for form in FORMS {
        check_ranked_votes(random, form);
    }
}

fn check_ranked_votes(random: &mut Random, form: Form) {
    let mut election = election(random, form);
    for (ballot, vote) in election.ballots.iter_mut().zip([1, 21, 34, 0, 435, 43]) {
        ballot.vote = vote;
    }
    let record = elect(&election, &drawn(random)).unwrap().record;
    let ranked = |count, left| Ranked { count, left };
    let due = Runoff {
        winner: Some(1),
        blank: 1,
        spoiled: 1,
        candidates: vec![
            ranked(2, None),
            ranked(1, Some(2)),
            ranked(2, Some(3)),
            ranked(1, Some(1)),
        ],
    };
    assert_eq!(runoff(&record, 4), Ok(due));
    for candidates in [0, 10, u32::MAX] {
        assert_eq!(runoff(&record, candidates), Err(Refusal(20)));
        assert_eq!(runoff(&record[1..], candidates), Err(Refusal(2)));
    }
}

/// The same election in the flat order.
fn nested(inputs: &Inputs) -> Election {
    let n = inputs.parameters.ballots();
    let (of_ballots, of_lists) = inputs.numbers.split_at(5 * n);
    let keys: Vec<[Key; 6]> = inputs
        .keys
        .chunks(192)
        .map(|six| std::array::from_fn(|slot| six[32 * slot..][..32].try_into().unwrap()))
        .collect();
    let ballot = |j: usize| {
        let [x, y, u1, u2, u3] = of_ballots[5 * j..][..5].try_into().unwrap();
        let (shares, first_halves) = ([x, y], [u1, u2, u3]);
        Ballot { id: inputs.ids[j], vote: inputs.votes[j], shares, first_halves, keys: keys[j] }
    };
    let list = |l: usize| {
        let (offsets, firsts) = of_lists[9 * n * l..][..9 * n].split_at(6 * n);
        let column = |c: usize| Column {
            offsets: (0..n).map(|i| [0, 1].map(|row| offsets[2 * (c * n + i) + row])).collect(),
            permutation: inputs.permutations[n * (3 * l + c)..][..n].to_vec(),
        };
        List {
            columns: [column(0), column(1), column(2)],
            first_halves: firsts.chunks(3).map(|three| three.try_into().unwrap()).collect(),
            keys: keys[n * (1 + l)..][..n].to_vec(),
        }
    };
    Election {
        form: inputs.parameters.form,
        modulus: inputs.parameters.modulus,
        ballots: (0..n).map(ballot).collect(),
        lists: (0..inputs.parameters.lists()).map(list).collect(),
    }
}

fn check_flat_order(random: &mut Random, n: u32, m: u32) {
    let parameters = Parameters { form: form(random), modulus: modulus(random), n, m };
    let inputs = inputs(random, parameters);
    let throws = drawn(random);
    let dice = [throws.first.clone(), throws.second.clone()];
    let board = board_with_dice(random, &inputs, &dice, BOTH);
    let posted = elect(&nested(&inputs), &throws).unwrap();
    assert!(posted.parts == board.parts);
    assert!(posted.record == board.record());
}

#[test]
fn the_flat_order() {
    let random = &mut Random::new(245);
    for (n, m) in [(1, 1), (5, 3), (12, 12), (300, 1)] {
        check_flat_order(random, n, m);
    }
}

#[test]
fn the_flat_order_of_many_ballots() {
    check_flat_order(&mut Random::new(247), 4096, 1);
}

/// The fourteenth day is a holiday, and so is the Monday behind it.
#[test]
fn calendar_of_an_election() {
    let april = |day| Date::new(2026, 4, day);
    let (election, holidays) = (Date::new(2026, 3, 31), [april(17), april(20)]);
    let due = Calendar {
        polling: 13_804_320..13_805_040,
        first_dice: 13_807_320..13_807_440,
        second_dice: 13_808_760..13_808_880,
        objections: 13_808_880..13_835_520,
    };
    assert_eq!(calendar(election, &holidays), Ok(due.clone()));
    let early = Calendar { objections: 13_808_880..13_829_760, ..due };
    assert_eq!(calendar(election, &[]), Ok(early));
    for (minute, window) in [
        (0, None),
        (13_804_319, None),
        (13_804_320, Some(Window::Polling)),
        (13_805_040, None),
        (13_807_439, Some(Window::FirstDice)),
        (13_808_879, Some(Window::SecondDice)),
        (13_808_880, Some(Window::Objections)),
        (13_835_519, Some(Window::Objections)),
        (13_835_520, None),
    ] {
        assert_eq!(window_at(election, &holidays, minute), Ok(window), "{minute}");
    }
    assert_eq!(window_at(election, &[], 13_829_760), Ok(None));
}

/// As election day and as holiday, also with numbers that would be another's.
#[test]
fn refused_days() {
    let easter = Date::new(2026, 4, 5);
    for (year, month, day) in [
        (2026, 2, 29),
        (1999, 12, 31),
        (2200, 1, 1),
        (2026, 4, 0),
        (2025, 103, 31),
        (2026, 2, 131),
        (2026 + (1 << 28), 3, 31),
        (u32::MAX, u32::MAX, u32::MAX),
    ] {
        let none = Date::new(year, month, day);
        assert_eq!(calendar(none, &[]), Err(Refusal(22)), "{none:?}");
        assert_eq!(calendar(easter, &[none]), Err(Refusal(22)), "{none:?}");
        assert_eq!(window_at(easter, &[none], 13_804_320), Err(Refusal(22)), "{none:?}");
    }
    assert_eq!(calendar(easter, &[easter, easter]), Err(Refusal(22)));
    assert_eq!(window_at(easter, &[easter, easter], 0), Err(Refusal(22)));
    assert!(calendar(easter, &[easter]).is_ok());
}
