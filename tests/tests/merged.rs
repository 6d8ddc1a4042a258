//! The merged association of document 02's item 3: 3,600 ballots, from the tablets to the runoff.
//! They go through the product's faces beside the reference, or without the feature `linked`
//! through the reference alone.

use paddockyear_tests::boards::calls::election::ElectionCall;
use paddockyear_tests::boards::{inputs, BOTH};
use paddockyear_tests::random::Random;
use paddockyear_tests::reference::judge::{judge_by, Fault, JUDGINGS};
use paddockyear_tests::reference::receipt::Posted;
use paddockyear_tests::reference::runoff::{Candidate, Outcome};
use paddockyear_tests::reference::tablet::SplitVote;
use paddockyear_tests::reference::terms::{Form, Parameters, FORMER};
use paddockyear_tests::reference::writer::Inputs;

#[cfg(feature = "linked")]
use paddockyear_tests::subjects::product as subject;
#[cfg(not(feature = "linked"))]
use paddockyear_tests::subjects::reference as subject;
use subject::*;

const M: u32 = 1000;
const MEMBERS: usize = 3600;

/// The votes for three candidates, rising, and how often each is cast.
const CAST: [(u32, u64); 6] = [(0, 7), (1, 1300), (2, 1025), (31, 255), (32, 1000), (44, 13)];

fn rising_votes() -> Vec<u32> {
    CAST.iter().flat_map(|&(vote, times)| vec![vote; times as usize]).collect()
}

/// The votes in any order; ids are the members' numbers, in three branches.
fn association(random: &mut Random) -> Inputs {
    let rising = rising_votes();
    let mut inputs = inputs(random, Parameters::unnumbered(M, MEMBERS as u32, 2));
    let order = random.permutation(MEMBERS);
    inputs.votes = order.iter().map(|&place| rising[usize::from(place)]).collect();
    inputs.ids = (0..MEMBERS as u32).map(|j| (1 + j / 1200) * 100_000 + j % 1200).collect();
    inputs
}

/// Each tablet's command and receipt.
fn cast(inputs: &Inputs) -> Vec<([u8; 197], [u8; 32])> {
    let ballot = |j: usize| {
        let [x, y, u1, u2, u3] = inputs.numbers[5 * j..][..5].try_into().unwrap();
        let split = SplitVote { vote: inputs.votes[j], shares: [x, y], firsts: [u1, u2, u3] };
        let (mut command, mut receipt) = ([0; 197], [0; 32]);
        let keys = &inputs.keys[192 * j..][..192];
        tablet(Form::Unnumbered, M, inputs.ids[j], &split, keys, &mut command, &mut receipt)
            .unwrap();
        (command, receipt)
    };
    (0..MEMBERS).map(ballot).collect()
}

/// The receipts of some members, the first and the last of each branch among them.
fn check_receipts(record: &[u8], receipts: &[[u8; 32]]) {
    for j in [0, 1, 255, 256, 1023, 1024, 1025, 1199, 1200, 2399, 2400, 3598, 3599] {
        let printed = receipts[j];
        let (mut other_hash, mut other_id) = (printed, printed);
        other_hash[31] ^= 1;
        other_id[1] ^= 0x80;
        for (receipt, due) in
            [(printed, Posted::AsPrinted), (other_hash, Posted::Otherwise), (other_id, Posted::Not)]
        {
            assert_eq!(check_receipt(record, &receipt), Ok(due), "ballot {j}");
            assert_eq!(look_up(record, &receipt), Ok(due), "ballot {j}");
        }
    }
}

/// The announced votes with their tally; and their runoff, in which 2 leaves and a vote for 2 alone
/// counts no more.
fn check_results(record: &[u8]) {
    let mut votes = vec![77; MEMBERS];
    assert_eq!(announced_votes(record, &mut votes), Ok(()));
    assert_eq!(votes, rising_votes());
    let (mut values, mut counts) = (vec![77; MEMBERS], vec![77; MEMBERS]);
    assert_eq!(tally(&votes, &mut values, &mut counts), Ok(CAST.len()));
    assert!(values.into_iter().zip(counts).take(CAST.len()).eq(CAST));
    let mut table = [Candidate { count: 77, left: 77 }; 3];
    let due = Outcome { winner: Some(1), blank: 7, spoiled: 13 };
    assert_eq!(runoff(&votes, 3, &mut table), Ok(due));
    assert_eq!(table.map(|entry| (entry.count, entry.left)), [(1300, 0), (1025, 1), (1255, 0)]);
}

#[test]
fn from_the_tablets_to_the_runoff() {
    let random = &mut Random::new(3600);
    let inputs = association(random);
    let (commands, receipts): (Vec<_>, Vec<_>) = cast(&inputs).into_iter().unzip();
    let mut call = ElectionCall::of(random, inputs, BOTH);
    assert_eq!(call.hold(election), Ok(()));
    let record = call.record();
    assert_eq!(record.len(), 6_422_475);
    assert!(record[8..8 + 197 * MEMBERS] == commands.concat());
    for judging in JUDGINGS {
        assert_eq!(judge(record, judging), Ok(rising_votes()), "{judging:?}");
        let before = judge_by(FORMER, record, judging);
        assert_eq!(before, Err(Fault { number: 3, place: 0 }));
    }
    check_receipts(record, &receipts);
    check_results(record);
}
