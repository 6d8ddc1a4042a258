//! What the instant runoff answers and writes. Elections worked out by hand; and for any other a
//! check of its table, round by round, that reads the votes as texts.

use std::collections::BTreeSet;

use crate::subject::runoff;
use paddockyear_tests::random::Random;
use paddockyear_tests::reference::runoff::{Candidate, Outcome};
use paddockyear_tests::reference::terms::sorted;

/// What a table holds before the call.
const NOISE: Candidate = Candidate { count: 0xA5A5_5A5A_0F0F_F0F0, left: 0x0F0F_A5A5 };

/// Of each candidate the last count and the round of leaving.
type Table = Vec<(u64, u32)>;

fn run(votes: &[u32], candidates: u32) -> (Outcome, Table) {
    let mut table = vec![NOISE; candidates as usize];
    let outcome = runoff(votes, candidates, &mut table).unwrap();
    (outcome, table.iter().map(|entry| (entry.count, entry.left)).collect())
}

/// Votes by how often each is cast, and what is due: the winner, or 0, blank and spoiled votes, and
/// the table.
fn due(cast: &[(usize, u32)], numbers: [u64; 3], table: &[(u64, u32)]) {
    let votes: Vec<u32> = cast.iter().flat_map(|&(times, vote)| vec![vote; times]).collect();
    let [winner, blank, spoiled] = numbers;
    let outcome = Outcome { winner: (winner > 0).then_some(winner as u32), blank, spoiled };
    assert_eq!(run(&votes, table.len() as u32), (outcome, table.to_vec()), "{cast:?}");
}

/// More than half of the counting votes: one vote decides.
#[test]
fn the_half() {
    due(&[(3, 1), (2, 23)], [1, 0, 0], &[(3, 0), (2, 0), (0, 0)]);
    due(&[(2, 1), (3, 2)], [2, 0, 0], &[(2, 0), (3, 0)]);
    due(&[(2, 1), (2, 2)], [1, 0, 0], &[(2, 0), (2, 1)]);
    due(&[(1, 12), (1, 21)], [1, 0, 0], &[(2, 0), (1, 1)]);
    due(&[(4, 12), (3, 23), (1, 3)], [1, 0, 0], &[(4, 0), (3, 0), (1, 1)]);
    due(&[(4, 12), (3, 231), (1, 321)], [1, 0, 0], &[(8, 0), (4, 2), (1, 1)]);
    due(&[(5, 31), (2, 1), (2, 2)], [3, 0, 0], &[(2, 0), (2, 0), (5, 0)]);
}

/// Of those with fewest votes the highest number leaves; who left decides who wins.
#[test]
fn ties_for_last() {
    due(&[(3, 1), (2, 23), (2, 32)], [2, 0, 0], &[(3, 0), (4, 0), (2, 1)]);
    due(&[(1, 123), (1, 231), (1, 312)], [1, 0, 0], &[(2, 0), (1, 0), (1, 1)]);
    due(&[(1, 132), (1, 213), (1, 321)], [2, 0, 0], &[(1, 0), (2, 0), (1, 1)]);
    due(
        &[(3, 1), (2, 24), (2, 34), (1, 43), (1, 42)],
        [1, 0, 0],
        &[(3, 0), (3, 3), (3, 2), (2, 1)],
    );
    due(&[(1, 3), (1, 1)], [1, 0, 0], &[(1, 0), (0, 3), (1, 4), (0, 2), (0, 1)]);
    due(&[(1, 4), (1, 5)], [4, 0, 0], &[(0, 3), (0, 2), (0, 1), (1, 0), (1, 4)]);
}

/// A vote goes on to the next of its candidates that stands, past those that have left.
#[test]
fn transferred_votes() {
    due(&[(4, 1), (3, 2), (2, 321), (1, 4321)], [2, 0, 0], &[(4, 0), (6, 0), (3, 2), (1, 1)]);
    due(
        &[(5, 1), (4, 2), (3, 3), (1, 432), (1, 423)],
        [2, 0, 0],
        &[(5, 0), (6, 0), (4, 2), (2, 1)],
    );
    due(&[(2, 1), (2, 21), (3, 3)], [1, 0, 0], &[(4, 0), (2, 1), (3, 0)]);
}

/// A vote all of whose candidates have left counts no more, and the half is of those that do.
#[test]
fn exhausted_votes() {
    due(&[(5, 1), (4, 2), (3, 3)], [1, 0, 0], &[(5, 0), (4, 0), (3, 1)]);
    due(&[(3, 1), (3, 2), (2, 3)], [1, 0, 0], &[(3, 0), (3, 2), (2, 1)]);
    due(&[(6, 1), (5, 2), (4, 34), (3, 43)], [3, 0, 0], &[(6, 0), (5, 2), (7, 0), (3, 1)]);
}

#[test]
fn blank_and_spoiled_votes() {
    due(&[], [0, 0, 0], &[(0, 0), (0, 0), (0, 0)]);
    due(&[(5, 0)], [0, 5, 0], &[(0, 0), (0, 0)]);
    due(&[(1, 3), (1, 13), (1, 11), (1, 10), (1, 102)], [0, 0, 5], &[(0, 0), (0, 0)]);
    due(&[(2, 0), (3, 33), (1, u32::MAX)], [0, 2, 4], &[(0, 0), (0, 0), (0, 0)]);
    due(&[(3, 1), (2, 2), (4, 0), (3, 33)], [1, 4, 3], &[(3, 0), (2, 0)]);
    due(&[(1, 0), (1, 2), (1, 220)], [2, 1, 1], &[(0, 0), (1, 0)]);
    due(&[(1, 102), (1, 120), (1, 201), (1, 210), (1, 20)], [0, 0, 5], &[(0, 0), (0, 0)]);
}

#[test]
fn one_candidate() {
    due(&[(2, 1), (1, 0), (1, 2), (1, 11)], [1, 1, 2], &[(2, 0)]);
    due(&[(1, 1)], [1, 0, 0], &[(1, 0)]);
    due(&[(1, 0), (1, 12), (1, 2)], [0, 1, 2], &[(0, 0)]);
    due(&[], [0, 0, 0], &[(0, 0)]);
}

/// Nine candidates with a vote each: nine rounds.
#[test]
fn nine_candidates() {
    let each: Vec<(usize, u32)> = (1..=9).map(|number| (1, number)).collect();
    let leaving = [(1, 0), (1, 8), (1, 7), (1, 6), (1, 5), (1, 4), (1, 3), (1, 2), (1, 1)];
    due(&each, [1, 0, 0], &leaving);
    let only_last = [(0, 0), (0, 0), (0, 0), (0, 0), (0, 0), (0, 0), (0, 0), (0, 0), (1, 0)];
    due(&[(1, 987_654_321)], [9, 0, 0], &only_last);
    let against = [(1, 0), (0, 7), (0, 6), (0, 5), (0, 4), (0, 3), (0, 2), (0, 1), (1, 8)];
    due(&[(1, 123_456_789), (1, 9)], [1, 0, 0], &against);
    let to_last = [(0, 7), (0, 6), (0, 5), (0, 4), (0, 3), (0, 2), (0, 1), (2, 0), (1, 8)];
    due(&[(1, 8), (1, 987_654_321), (1, 987_654_322)], [8, 0, 1], &to_last);
}

/// The votes of samples/ranked.board.
#[test]
fn the_sample() {
    let first = [(1, 1), (1, 12), (1, 123), (1, 1234), (1, 13), (1, 1342)];
    let second = [(1, 2), (1, 21), (1, 213), (1, 2143), (1, 24), (1, 2431)];
    let others = [(1, 32), (1, 342), (1, 31), (1, 41), (1, 423), (1, 4)];
    let none = [(2, 0), (1, 302), (1, 122), (1, 51)];
    let cast = [&first[..], &second, &others, &none].concat();
    due(&cast, [2, 2, 3], &[(8, 0), (9, 0), (3, 2), (3, 1)]);
}

#[derive(Clone, Copy, Debug, PartialEq, Eq)]
enum Kind {
    Blank,
    Spoiled,
    Valid,
}

/// By the characters of the vote's text.
fn kind(vote: u32, candidates: u32) -> Kind {
    let text = vote.to_string();
    let known = |c: char| "123456789"[..candidates as usize].contains(c);
    let repeated = text.char_indices().any(|(at, c)| text[..at].contains(c));
    match &text[..] {
        "0" => Kind::Blank,
        _ if text.chars().all(known) && !repeated => Kind::Valid,
        _ => Kind::Spoiled,
    }
}

/// A vote alone: the first of a valid one wins at once.
fn check_alone(vote: u32, candidates: u32) -> Kind {
    let kind = kind(vote, candidates);
    let first = vote.to_string().chars().next().and_then(|c| c.to_digit(10));
    let winner = first.filter(|_| kind == Kind::Valid);
    let (blank, spoiled) = (u64::from(kind == Kind::Blank), u64::from(kind == Kind::Spoiled));
    let table = (1..=candidates).map(|number| (u64::from(winner == Some(number)), 0)).collect();
    let due = (Outcome { winner, blank, spoiled }, table);
    assert_eq!(run(&[vote], candidates), due, "{vote}, {candidates} candidates");
    kind
}

/// As many are valid as there are rankings of up to four of the candidates.
#[test]
fn every_vote_of_four_digits() {
    for (candidates, due) in (1..=9).zip([1, 4, 15, 64, 205, 516, 1099, 2080, 3609]) {
        let kinds: Vec<Kind> = (0..=9999).map(|vote| check_alone(vote, candidates)).collect();
        let count = |due: Kind| kinds.iter().filter(|&&kind| kind == due).count();
        assert_eq!(count(Kind::Valid), due);
        assert_eq!((count(Kind::Blank), count(Kind::Spoiled)), (1, 9999 - due));
    }
}

#[test]
fn four_digits_on_many_ballots() {
    let votes: Vec<u32> = (0..=9999).collect();
    for candidates in 1..=9 {
        check(&votes, candidates);
    }
}

/// Some of the candidates in any order.
fn ranking(random: &mut Random, candidates: u32) -> Vec<u32> {
    let order = random.permutation(candidates as usize);
    let length = 1 + random.index(candidates as usize);
    order[..length].iter().map(|&place| 1 + u32::from(place)).collect()
}

/// Ten digits may be more than a vote holds.
fn number(digits: &[u32]) -> Option<u32> {
    let number = digits.iter().fold(0, |number, &digit| 10 * number + u64::from(digit));
    u32::try_from(number).ok()
}

/// Valid votes, and each with one digit that is 0, unknown or repeated, at every place.
#[test]
fn a_digit_that_spoils() {
    let random = &mut Random::new(300);
    for round in 0..2_000 {
        let candidates = 1 + round % 9;
        let digits = ranking(random, candidates);
        assert_eq!(check_alone(number(&digits).unwrap(), candidates), Kind::Valid);
        for place in 0..=digits.len() {
            let unknown = (candidates < 9).then_some(candidates + 1);
            let zero = (place > 0).then_some(0);
            let repeated = digits[(place + 1) % digits.len()];
            for digit in [unknown, zero, Some(repeated)].into_iter().flatten() {
                let before = &digits[..place];
                let vote = number(&[before, &[digit], &digits[place..]].concat());
                let spoiled = vote.map(|vote| check_alone(vote, candidates));
                assert!(spoiled.is_none_or(|kind| kind == Kind::Spoiled), "{vote:?}");
            }
        }
    }
}

/// Nothing above 987,654,321 is valid.
#[test]
fn votes_of_ten_digits() {
    let random = &mut Random::new(301);
    let billion = 1_000_000_000;
    let mut votes = vec![billion, billion + 1, 1_023_456_789, 1_234_567_890, 1_234_567_891];
    votes.extend([987_654_322, 2_147_483_647, 2_147_483_648, 3_123_456_789, 4_198_765_432]);
    votes.extend([u32::MAX - 1, u32::MAX]);
    votes.extend((0..500).map(|_| billion + random.number(u32::MAX - billion)));
    for candidates in 1..=9 {
        for &vote in &votes {
            assert_eq!(check_alone(vote, candidates), Kind::Spoiled);
        }
    }
    assert_eq!(check_alone(987_654_321, 9), Kind::Valid);
    assert_eq!(check_alone(987_654_321, 8), Kind::Spoiled);
    assert_eq!(check_alone(123_456_789, 9), Kind::Valid);
}

/// What the rounds of an election had in them.
#[derive(Clone, Copy, Debug, PartialEq, Eq, PartialOrd, Ord)]
enum Event {
    Rounds(u32),
    LastOfEquals(usize),
    ExactlyHalf,
    OneAboveHalf,
    ExhaustedVote,
    NoWinner,
}

/// Each candidate's votes in a round, none for one that has left before it, and the votes that count
/// no more.
fn counts(texts: &[String], table: &Table, round: u32) -> (Vec<Option<u64>>, u64) {
    let stands = |&(_, left): &(u64, u32)| left == 0 || left >= round;
    let mut counts: Vec<Option<u64>> =
        table.iter().map(|entry| stands(entry).then_some(0)).collect();
    let mut exhausted = 0;
    for text in texts {
        let places = text.bytes().map(|digit| usize::from(digit - b'1'));
        match places.into_iter().find(|&place| counts[place].is_some()) {
            Some(place) => counts[place] = counts[place].map(|count| count + 1),
            None => exhausted += 1,
        }
    }
    (counts, exhausted)
}

/// A round that somebody leaves: nobody has more than half, and of the fewest it is the last.
fn check_leaving(counts: &[Option<u64>], leaver: usize) -> Vec<Event> {
    let counting: u64 = counts.iter().flatten().sum();
    let (&fewest, &most) =
        (counts.iter().flatten().min().unwrap(), counts.iter().flatten().max().unwrap());
    assert!(counting > 0 && counting - most >= most, "{counts:?} has a winner, or no vote");
    assert_eq!(counts.iter().rposition(|&count| count == Some(fewest)), Some(leaver));
    let equals = counts.iter().filter(|&&count| count == Some(fewest)).count();
    let half = (counting == 2 * most).then_some(Event::ExactlyHalf);
    let tie = (equals > 1).then_some(Event::LastOfEquals(equals));
    [half, tie].into_iter().flatten().collect()
}

/// The last round: who wins has more than all others; nobody does if no vote counts.
fn check_last(counts: &[Option<u64>], winner: Option<u32>) -> Option<Event> {
    let counting: u64 = counts.iter().flatten().sum();
    let Some(winner) = winner else {
        assert_eq!(counting, 0);
        return Some(Event::NoWinner);
    };
    let count = counts[winner as usize - 1].expect("the winner stands");
    let others = counting - count;
    assert!(count > others, "{counts:?}, {winner} wins");
    (count - others == 1).then_some(Event::OneAboveHalf)
}

/// Runs an election, and follows it from round to round by its table.
fn check(votes: &[u32], candidates: u32) -> BTreeSet<Event> {
    let (outcome, table) = run(votes, candidates);
    let of_kind = |due: Kind| votes.iter().filter(move |&&vote| kind(vote, candidates) == due);
    let texts: Vec<String> = of_kind(Kind::Valid).map(u32::to_string).collect();
    assert_eq!(outcome.blank, of_kind(Kind::Blank).count() as u64);
    assert_eq!(outcome.spoiled, of_kind(Kind::Spoiled).count() as u64);
    assert_eq!(outcome.winner.is_none(), texts.is_empty());
    let last = 1 + table.iter().map(|&(_, left)| left).max().unwrap();
    let mut events = BTreeSet::from([Event::Rounds(last)]);
    for round in 1..=last {
        let (counts, exhausted) = counts(&texts, &table, round);
        let counting: u64 = counts.iter().flatten().sum();
        let total = counting + exhausted + outcome.blank + outcome.spoiled;
        assert_eq!(total, votes.len() as u64);
        let left_now = |&(_, left): &(u64, u32)| left == round || (round == last && left == 0);
        for (entry, count) in table.iter().zip(&counts).filter(|(entry, _)| left_now(entry)) {
            assert_eq!(Some(entry.0), *count, "{candidates} candidates, {votes:?}");
        }
        let leavers: Vec<usize> = (0..table.len()).filter(|&at| table[at].1 == round).collect();
        match leavers[..] {
            [leaver] if round < last => events.extend(check_leaving(&counts, leaver)),
            [] if round == last => events.extend(check_last(&counts, outcome.winner)),
            _ => panic!("{leavers:?} leave in round {round} of {last}"),
        }
        events.extend((exhausted > 0).then_some(Event::ExhaustedVote));
    }
    events
}

/// A vote of any kind: valid ones most often.
fn any_vote(random: &mut Random, candidates: u32) -> u32 {
    match random.below(12) {
        0 => 0,
        1 => random.number(1_000),
        2 => random.word() as u32,
        3 => number(&ranking(random, 9)).unwrap(),
        _ => number(&ranking(random, candidates)).unwrap(),
    }
}

/// Votes out of a few, some much more often than others, so that there are ties and majorities.
fn any_votes(random: &mut Random, candidates: u32) -> Vec<u32> {
    let pool: Vec<u32> = (0..1 + random.index(12)).map(|_| any_vote(random, candidates)).collect();
    let length = random.pick(&[0, 1, 2, 3, 5, 8, 12, 20, 40, 100]);
    let skew = random.below(3);
    let place = |random: &mut Random| (0..=skew).map(|_| random.index(pool.len())).min().unwrap();
    (0..length).map(|_| pool[place(random)]).collect()
}

fn shuffled(random: &mut Random, votes: &[u32]) -> Vec<u32> {
    random.permutation(votes.len()).iter().map(|&place| votes[usize::from(place)]).collect()
}

/// Elections of any shape. Among them is whatever may happen in a round.
#[test]
fn random_elections() {
    let random = &mut Random::new(302);
    let mut met = BTreeSet::new();
    for round in 0..9_000 {
        let candidates = 1 + round % 9;
        met.extend(check(&any_votes(random, candidates), candidates));
    }
    let one_of_each =
        [Event::ExactlyHalf, Event::OneAboveHalf, Event::ExhaustedVote, Event::NoWinner];
    let rounds = (1..=9).map(Event::Rounds);
    let equals = (2..=7).map(Event::LastOfEquals);
    let due: BTreeSet<Event> = one_of_each.into_iter().chain(rounds).chain(equals).collect();
    let left: Vec<&Event> = due.difference(&met).collect();
    assert!(left.is_empty(), "{left:?} never happened");
}

/// Only how often each vote is there counts, not where.
#[test]
fn votes_in_any_order() {
    let random = &mut Random::new(303);
    for round in 0..1_500 {
        let candidates = 1 + round % 9;
        let votes = any_votes(random, candidates);
        let rising = sorted(&votes);
        let due = run(&rising, candidates);
        assert_eq!(run(&votes, candidates), due);
        assert_eq!(run(&rising.into_iter().rev().collect::<Vec<u32>>(), candidates), due);
        for _ in 0..3 {
            assert_eq!(run(&shuffled(random, &votes), candidates), due);
        }
    }
}

/// Every election of up to four votes out of those for two candidates, and of up to three for three.
#[test]
fn every_small_election() {
    let two = [0, 1, 2, 12, 21, 11, 3];
    let three = [0, 1, 2, 3, 12, 13, 21, 23, 31, 32, 123, 132, 213, 231, 312, 321, 4];
    for (candidates, votes, most) in [(2, &two[..], 4), (3, &three, 3)] {
        for length in 0..=most {
            check_all(votes, candidates, length);
        }
    }
}

/// Every election of so many votes out of these.
fn check_all(pool: &[u32], candidates: u32, length: u32) {
    for place in 0..pool.len().pow(length) {
        let at = |digit: u32| pool[place / pool.len().pow(digit) % pool.len()];
        check(&(0..length).map(at).collect::<Vec<u32>>(), candidates);
    }
}

/// More votes than 16 bits count.
#[test]
fn runoff_of_many_ballots() {
    let random = &mut Random::new(304);
    for candidates in [1, 2, 5, 9] {
        let votes: Vec<u32> = (0..200_000).map(|_| any_vote(random, candidates)).collect();
        check(&votes, candidates);
        check(&vec![1; 70_000], candidates);
        check(&vec![0; 70_000], candidates);
        check(&vec![u32::MAX; 70_000], candidates);
    }
}

/// As many votes as a record announces at most: exactly half of them, one more, and one less.
#[test]
fn half_of_many_ballots() {
    due(&[(2048, 12), (2048, 21)], [1, 0, 0], &[(4096, 0), (2048, 1)]);
    due(&[(2047, 12), (2049, 21)], [2, 0, 0], &[(2047, 0), (2049, 0)]);
    due(&[(2049, 12), (2047, 21)], [1, 0, 0], &[(2049, 0), (2047, 0)]);
    due(
        &[(1024, 0), (1024, 44), (1025, 1), (600, 2), (423, 32)],
        [1, 1024, 1024],
        &[(1025, 0), (600, 0), (423, 0)],
    );
    due(&[(1365, 1), (1366, 2), (1364, 31), (1, 0)], [1, 1, 0], &[(2729, 0), (1366, 0), (1364, 1)]);
    let random = &mut Random::new(305);
    for candidates in 1..=9 {
        let votes: Vec<u32> = (0..4096).map(|_| any_vote(random, candidates)).collect();
        check(&votes, candidates);
    }
}

/// A call that is refused leaves the table as it was.
fn refused(votes: &[u32], candidates: u32, length: usize) -> u8 {
    let noise: Vec<Candidate> =
        (0..length).map(|at| Candidate { count: NOISE.count + at as u64, ..NOISE }).collect();
    let mut table = noise.clone();
    let number = runoff(votes, candidates, &mut table).unwrap_err();
    assert_eq!(table, noise);
    number
}

const VOTES: [&[u32]; 4] = [&[], &[1, 1, 2], &[0, 0], &[12, 21, 0, u32::MAX]];

/// Whatever the length of the table.
#[test]
fn rule_20_candidates() {
    let low_bits = [256, 257, 265, 65_536, 65_537, 65_545, 0x8000_0000, 0x8000_0001];
    let outside = [0, 10, 11, 12, 19, 20, 100, 255, u32::MAX - 9, u32::MAX - 1, u32::MAX];
    for votes in VOTES {
        for candidates in low_bits.into_iter().chain(outside) {
            for length in (0..=20).chain([256, 257, 265]) {
                assert_eq!(refused(votes, candidates, length), 20, "{candidates}, {length}");
            }
        }
    }
}

#[test]
fn rule_18_table() {
    for votes in VOTES {
        for candidates in 1..=9 {
            let due = candidates as usize;
            let others = (0..=20).filter(|&length| length != due);
            for length in others.chain([due + 256, due + 65_536]) {
                assert_eq!(refused(votes, candidates, length), 18, "{candidates}, {length}");
            }
            run(votes, candidates);
        }
    }
}
