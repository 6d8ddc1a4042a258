//! Document 01's samples that a program runs: those of whole records, and the vectors published with
//! FIPS 202. They go through the product's faces beside the reference, or without the feature
//! `linked` through the reference alone.

use paddockyear_tests::boards::calls::election::ElectionCall;
use paddockyear_tests::boards::copies::{put_ballot, record_of, Copied};
use paddockyear_tests::boards::{inputs, still_inputs, Layout, BOTH, FORMS};
use paddockyear_tests::hex;
use paddockyear_tests::random::Random;
use paddockyear_tests::reference::judge::{judge_by, Fault, Judging, JUDGINGS};
use paddockyear_tests::reference::receipt::Posted;
use paddockyear_tests::reference::tablet::{receipt, SplitVote};
use paddockyear_tests::reference::terms::{sorted, Parameters, COPIES_STAND};
use paddockyear_tests::reference::writer::{Inputs, MaskSource, SidesSource};

#[cfg(feature = "linked")]
use paddockyear_tests::subjects::product as subject;
#[cfg(not(feature = "linked"))]
use paddockyear_tests::subjects::reference as subject;
use subject::*;

fn of(modulus: u32, n: u32, m: u32) -> Parameters {
    Parameters::unnumbered(modulus, n, m)
}

/// The same in both forms.
fn both(modulus: u32, n: u32, m: u32) -> [Parameters; 2] {
    FORMS.map(|form| Parameters { form, modulus, n, m })
}

/// The record of an election with both draws.
fn record(random: &mut Random, inputs: &Inputs) -> Vec<u8> {
    let mut call = ElectionCall::of(random, inputs.clone(), BOTH);
    assert_eq!(call.hold(election), Ok(()));
    call.record().to_vec()
}

fn accepted(record: &[u8], votes: &[u32]) {
    for judging in JUDGINGS {
        assert_eq!(judge(record, judging), Ok(sorted(votes)), "{judging:?}");
    }
}

/// Both judgings and the announced votes refuse it.
fn refused(record: &[u8], number: u8, place: usize) {
    for judging in JUDGINGS {
        assert_eq!(judge(record, judging), Err(Fault { number, place }), "{judging:?}");
    }
    assert_eq!(announced_votes(record, &mut [7; 2]), Err(number));
}

/// What the servers' five calls and the election answer to these inputs of two lists.
fn answered_by_servers(random: &mut Random, inputs: &Inputs, due: Result<(), u8>) {
    let parameters = inputs.parameters;
    let [mut one, mut two, mut three] = parameters.part_lengths().map(|length| vec![7; length]);
    let (dice, sides) = (random.dice(), vec![0; parameters.ballots()]);
    assert_eq!(part_one(inputs, &mut one), due);
    assert_eq!(part_two(inputs, &dice, MaskSource::Given(1), &mut two), due);
    assert_eq!(part_three(inputs, &dice, 1, SidesSource::Given(&sides), &mut three), due);
    let drawn = MaskSource::Drawn { part_one: &one };
    assert_eq!(part_two(inputs, &dice, drawn, &mut two), due);
    let drawn = SidesSource::Drawn { part_one: &one, part_two: &two };
    assert_eq!(part_three(inputs, &dice, 1, drawn, &mut three), due);
    let mut call = ElectionCall::of(random, inputs.clone(), BOTH);
    let before = call.clone();
    assert_eq!(call.hold(election), due);
    if due.is_err() {
        assert!(one.iter().chain(&two).chain(&three).all(|&byte| byte == 7));
        assert!(call == before);
    }
}

/// What every writer answers to these parameters, all slices being as long as they ask for.
fn answered_by_writers(random: &mut Random, parameters: Parameters, due: Result<(), u8>) {
    let inputs = still_inputs(random, parameters);
    answered_by_servers(random, &inputs, due);
    let (dice, one) = (random.dice(), vec![7; parameters.part_lengths()[0]]);
    assert_eq!(mask_entry(&parameters, &dice, &one).map(|_| ()), due);
    let Parameters { modulus, n, .. } = parameters;
    let (row, places) = (vec![0; n as usize], (0..n as u16).collect::<Vec<u16>>());
    let mut out = vec![7; n as usize];
    assert_eq!(row_server(modulus, n, &row, &row, &places, &mut out), due);
    assert_eq!(offsets_server(modulus, n, &row, &row, &mut out), due);
    assert_eq!(split_server(modulus, n, &row, &row, &mut out), due);
    assert!(due.is_ok() || out.iter().all(|&number| number == 7));
}

/// An election of so many ballots stands with all its writers; its record, and its last receipt.
fn stands(random: &mut Random, n: u32) -> (Vec<u8>, [u8; 32]) {
    let inputs = inputs(random, of(100, n, 1));
    let record = record(random, &inputs);
    accepted(&record, &inputs.votes);
    let last = n as usize - 1;
    let printed = receipt(inputs.ids[last], &record[8 + 197 * last..][..197]);
    assert_eq!(check_receipt(&record, &printed), Ok(Posted::AsPrinted));
    assert_eq!(look_up(&record, &printed), Ok(Posted::AsPrinted));
    answered_by_writers(random, of(100, n, 1), Ok(()));
    (record, printed)
}

#[test]
fn empty_record() {
    refused(&[], 1, 0);
    assert_eq!(check_receipt(&[], &[0; 32]), Err(1));
    assert_eq!(look_up(&[], &[0; 32]), Err(1));
}

#[test]
fn most_ballots() {
    let random = &mut Random::new(3);
    let (mut record, printed) = stands(random, 4096);
    assert_eq!(record.len(), 4_300_875);
    record[5..7].copy_from_slice(&4097u16.to_be_bytes());
    refused(&record, 3, 0);
    assert_eq!(check_receipt(&record, &printed), Err(3));
    assert_eq!(look_up(&record, &printed), Err(3));
    answered_by_writers(random, of(100, 4097, 1), Err(3));
}

#[test]
fn most_ballots_numbered() {
    let random = &mut Random::new(8);
    let inputs = inputs(random, Parameters::numbered(4097, 100, 4096, 1));
    let mut record = record(random, &inputs);
    assert_eq!(record.len(), 4_300_879);
    accepted(&record, &inputs.votes);
    record[9..11].copy_from_slice(&4097u16.to_be_bytes());
    refused(&record, 3, 0);
    answered_by_writers(random, Parameters::numbered(4096, 100, 4097, 1), Err(3));
}

/// It was 3 before document 02's item 3.
#[test]
fn a_ballot_more_than_1_024() {
    let random = &mut Random::new(7);
    let (record, _) = stands(random, 1025);
    assert_eq!(record.len(), 1_076_325);
}

#[test]
fn smallest_modulus() {
    let random = &mut Random::new(2);
    for parameters in both(2, 2, 1) {
        let inputs = inputs(random, parameters);
        let mut record = record(random, &inputs);
        accepted(&record, &inputs.votes);
        let place = Layout::new(&parameters).modulus();
        record[place..place + 4].copy_from_slice(&1u32.to_be_bytes());
        refused(&record, 3, 0);
        assert_eq!(check_receipt(&record, &[0; 32]), Err(3));
        assert_eq!(look_up(&record, &[0; 32]), Err(3));
        answered_by_writers(random, Parameters { modulus: 1, ..parameters }, Err(3));
        let split = SplitVote { vote: 0, shares: [0; 2], firsts: [0; 3] };
        for (modulus, due) in [(1, Err(3)), (2, Ok(()))] {
            let (form, mut command, mut printed) = (parameters.form, [7; 197], [7; 32]);
            let answer = tablet(form, modulus, 5, &split, &[0; 192], &mut command, &mut printed);
            assert_eq!(answer, due);
            assert_eq!((command, printed) == ([7; 197], [7; 32]), due.is_err());
        }
    }
}

#[test]
fn byte_behind() {
    let random = &mut Random::new(1);
    for parameters in both(100, 2, 1) {
        let inputs = inputs(random, parameters);
        let record = record(random, &inputs);
        accepted(&record, &inputs.votes);
        assert_eq!(record.last(), Some(&0x0B));
        for byte in [0x00, 0x01, 0x0B, 0x0C, 0xFF] {
            refused(&[&record[..], &[byte]].concat(), 17, record.len());
        }
    }
}

/// Vote, numbers and keys of the second ballot are the first's.
fn with_equal_openings(random: &mut Random, parameters: Parameters) -> Inputs {
    let mut inputs = inputs(random, parameters);
    inputs.votes[1] = inputs.votes[0];
    inputs.numbers.copy_within(0..5, 5);
    inputs.keys.copy_within(0..192, 192);
    inputs
}

/// They stood before document 02's item 5. Servers refuse the inputs, and the judge the record that
/// servers wrote then; receipts are as printed.
#[test]
fn equal_commitments() {
    let random = &mut Random::new(4);
    let inputs = with_equal_openings(random, of(100, 2, 1));
    answered_by_servers(random, &inputs, Err(21));
    let record = record_of(random, &inputs, Judging::Drawn);
    check_copied(&record, &inputs);
    for judging in JUDGINGS {
        let before = judge_by(COPIES_STAND, &record, judging);
        assert_eq!(before, Ok(sorted(&inputs.votes)), "{judging:?}");
    }
}

/// With 0C places tell equal openings apart, by document 02's item 8; what was posted once is
/// refused where it is posted again.
#[test]
fn equal_openings_and_equal_commitments() {
    let random = &mut Random::new(10);
    let parameters = both(100, 2, 1)[1];
    let equal = with_equal_openings(random, parameters);
    answered_by_servers(random, &equal, Ok(()));
    accepted(&record(random, &equal), &equal.votes);
    let copied = Copied::none(inputs(random, parameters)).and_ballot(0, 1);
    check_copied(&copied.posted(random, Judging::Drawn), &copied.inputs);
}

/// The second ballot's commitments are the first's.
fn check_copied(record: &[u8], inputs: &Inputs) {
    let [first, second] = [0, 1].map(|j| Layout::new(&inputs.parameters).ballot(j));
    assert_eq!(record[first + 5..second], record[second + 5..second + 197]);
    refused(record, 21, second);
    for (id, place) in inputs.ids.iter().zip([first, second]) {
        let printed = receipt(*id, &record[place..][..197]);
        assert_eq!(check_receipt(record, &printed), Ok(Posted::AsPrinted));
        assert_eq!(look_up(record, &printed), Ok(Posted::AsPrinted));
    }
}

#[test]
fn equal_commitments_inside_a_ballot() {
    let random = &mut Random::new(9);
    for parameters in both(100, 2, 1) {
        let mut inputs = inputs(random, parameters);
        for ballot in 0..2 {
            let opening = inputs.ballot_openings(ballot)[0];
            put_ballot(&mut inputs, ballot, [opening; 6]);
        }
        answered_by_servers(random, &inputs, Ok(()));
        accepted(&record(random, &inputs), &inputs.votes);
    }
}

#[test]
fn lengths() {
    let random = &mut Random::new(6);
    for (parameters, length) in [(of(100, 1, 1), 1_125), (of(100, 8, 2), 14_347)] {
        let inputs = inputs(random, parameters);
        let record = record(random, &inputs);
        assert_eq!((record.len(), parameters.record_length()), (length, length));
        assert_eq!(parameters.part_lengths().iter().sum::<usize>(), length);
        accepted(&record, &inputs.votes);
        for wrong in [0, length - 1, length + 1] {
            let mut call = ElectionCall::of(random, inputs.clone(), BOTH);
            call.buffers[3] = vec![7; wrong];
            assert_eq!(call.hold(election), Err(18));
        }
    }
    for ((n, m), length) in [((1, 1), 1_129), ((8, 2), 14_351)] {
        let inputs = inputs(random, Parameters::numbered(u32::MAX, 100, n, m));
        let record = record(random, &inputs);
        assert_eq!((record.len(), inputs.parameters.record_length()), (length, length));
        accepted(&record, &inputs.votes);
        for wrong in [0, length - 4, length - 1, length + 1] {
            let mut call = ElectionCall::of(random, inputs.clone(), BOTH);
            call.buffers[3] = vec![7; wrong];
            assert_eq!(call.hold(election), Err(18));
        }
    }
    assert_eq!(of(2, 1024, 12).record_length(), 9_343_051);
    assert_eq!(of(2, 4096, 12).record_length(), 37_371_979);
}

/// The page's record: its votes and their tally.
#[test]
fn votes_2_5_5() {
    let random = &mut Random::new(5);
    for parameters in both(9, 3, 2) {
        let mut inputs = inputs(random, parameters);
        inputs.votes = vec![5, 2, 5];
        let record = record(random, &inputs);
        accepted(&record, &[2, 5, 5]);
        let (mut votes, mut values, mut counts) = ([7; 3], [7; 3], [7; 3]);
        assert_eq!(announced_votes(&record, &mut votes), Ok(()));
        assert_eq!(tally(&votes, &mut values, &mut counts), Ok(2));
        assert_eq!((votes, values, counts), ([2, 5, 5], [2, 5, 7], [1, 2, 7]));
    }
}

const TWO_BLOCKS: &str = "abcdefghbcdefghicdefghijdefghijkefghijklfghijklmghijklmnhijklmno\
                          ijklmnopjklmnopqklmnopqrlmnopqrsmnopqrstnopqrstu";

/// Message, SHA3-224, SHA3-256.
fn vectors() -> Vec<(Vec<u8>, &'static str, &'static str)> {
    vec![
        (
            vec![],
            "6b4e03423667dbb73b6e15454f0eb1abd4597f9a1b078e3f5b5a6bc7",
            "a7ffc6f8bf1ed76651c14756a061d662f580ff4de43b49fa82d80a4b80f8434a",
        ),
        (
            b"abc".to_vec(),
            "e642824c3f8cf24ad09234ee7d3c766fc9a3a5168d0c94ad73b46fdf",
            "3a985da74fe225b2045c172d6bd390bd855f086e3e9d525b46bfe24511431532",
        ),
        (
            b"abcdbcdecdefdefgefghfghighijhijkijkljklmklmnlmnomnopnopq".to_vec(),
            "8a24108b154ada21c9fd5574494479ba5c7e7ab76ef264ead0fcce33",
            "41c0dba2a9d6240849100376a8235e2c82e1b9998a999e21db32dd97496d3376",
        ),
        (
            TWO_BLOCKS.as_bytes().to_vec(),
            "543e6868e1666c1a643630df77367ae5a62a85070a51c14cbf665cbc",
            "916f6061fe879741ca6469b43971dfdb28b1a32dc36cb3254e812be27aad1d18",
        ),
        (
            vec![0xA3; 200],
            "9376816aba503f72f96ce7eb65ac095deee3be4bf9bbc2a1cb7e11e0",
            "79f38adec5c20307a98ef76e8324afbfd46cfd81b22e3973c65fa1bd9de31787",
        ),
        (
            vec![b'a'; 1_000_000],
            "d69335b93325192e516a912e6d19a15cb51c6ed5c15243e7a7fd653c",
            "5c8875ae474a3634ba4fd55ec85bffd661f32aca75c6d699d0cdcb6c115891c1",
        ),
    ]
}

#[test]
fn published_digests() {
    for (message, digest_224, digest_256) in vectors() {
        assert_eq!(hex(&sha3_224(&message)), digest_224, "{} bytes", message.len());
        assert_eq!(hex(&sha3_256(&message)), digest_256, "{} bytes", message.len());
    }
}

/// The published first lanes of Keccak-f[1600] applied once and twice to the zero state.
#[test]
fn permutation_of_zero() {
    let mut lanes = [0; 25];
    keccak_f(&mut lanes);
    assert_eq!(lanes[..3], [0xF1258F7940E1DDE7, 0x84D5CCF933C0478A, 0xD598261EA65AA9EE]);
    keccak_f(&mut lanes);
    assert_eq!(lanes[..3], [0x2D5C954DF96ECB3C, 0x6A332CD07057B56D, 0x093D8D1270D76B6C]);
}
