//! Conventions that writer and judge share, pinned by values worked out outside this crate, from
//! document 01's words and document 02's items 4 and 8, with another program's SHA-3.

use paddockyear_tests::boards::{board_with_dice, BOTH};
use paddockyear_tests::hex;
use paddockyear_tests::random::Random;
use paddockyear_tests::reference::drawing::{drawn_mask, drawn_sides, seed};
use paddockyear_tests::reference::judge::{judge, Judging};
use paddockyear_tests::reference::receipt::{check_receipt, Posted};
use paddockyear_tests::reference::sha3::sha3_256;
use paddockyear_tests::reference::tablet::receipt;
use paddockyear_tests::reference::terms::{sorted, Form, Holder, Opening, Parameters};
use paddockyear_tests::reference::writer::Inputs;

const DICE: &[u8; 30] = b"123456123456123456123456123456";
const Q: &str = "123456123456123456123456123456\
                 e642824c3f8cf24ad09234ee7d3c766fc9a3a5168d0c94ad73b46fdf";

const OPENING: [u8; 36] = *b"\x00\x01\x02\x03\x04\x05\x06\x07\x08\x09\x0A\x0B\x0C\x0D\x0E\x0F\
    \x10\x11\x12\x13\x14\x15\x16\x17\x18\x19\x1A\x1B\x1C\x1D\x1E\x1F\x01\x02\x03\x04";

fn opening() -> Opening {
    Opening { key: std::array::from_fn(|at| at as u8), number: 0x0102_0304 }
}

/// The key stands before the number. With 01 the place does not count.
#[test]
fn commitment() {
    assert_eq!(opening().to_bytes(), OPENING);
    for holder in [Holder::Ballot { id: 0 }, Holder::Entry { list: 23, position: 4095 }] {
        for place in holder.places() {
            assert_eq!(
                hex(&Form::Unnumbered.scheme().commitment(place, &opening())),
                "de4b6bf3bb8922880459c0a3523e9057ddd829c0c6f61ce70d8492eaac6a93dd"
            );
        }
    }
}

/// Commitments to the same opening with 0C: the election's number, the place and the commitment.
const PLACED: [(u32, Holder, u8, &str); 18] = [
    (
        0,
        Holder::Ballot { id: 0 },
        0,
        "1a91e7c48d3f8b07dd84531cb6052a9b5a5dbe3b50e19f983b528fad0c93334e",
    ),
    (
        0,
        Holder::Ballot { id: 0 },
        1,
        "c5b558e9d4f4e6e8dec8803dd787d543edfae337aa86b2cb06106caadd8071a4",
    ),
    (
        1,
        Holder::Ballot { id: 0 },
        0,
        "21ceda9b242352abe49cc1e2727a3225ae18c37b5efafe36240247aa55d5dd91",
    ),
    (
        1,
        Holder::Ballot { id: 255 },
        5,
        "1227cb776718cee3861e564302533b51edd176b6e0c8a3c736205a321ad14f45",
    ),
    (
        1,
        Holder::Ballot { id: 256 },
        5,
        "6a8914d08c6470b4f89dd145e49d4748c5c6b46b1424f8d42b7f5247055340b5",
    ),
    (
        1,
        Holder::Ballot { id: 65_536 },
        5,
        "28136a78e75c86599130263ae41598603557b6241807ec7738e73b1f3e25c5c1",
    ),
    (
        0x0102_0304,
        Holder::Ballot { id: 0x0506_0708 },
        3,
        "642bce12715df6b012484a42ecdc4e8d6ce07d0e0260588196fb6f9bd0137ddd",
    ),
    (
        0x0C0C_0C0C,
        Holder::Ballot { id: u32::MAX },
        2,
        "4943d5ecce8c7dd445a251fd8d0892fd54a6720b1a226c799c66befc715c4a2b",
    ),
    (
        u32::MAX,
        Holder::Ballot { id: u32::MAX },
        5,
        "a42cff899bda60054375adb82dc7da1baabcfa4a3f85feb1acce7a111ea03912",
    ),
    (
        0,
        Holder::Entry { list: 0, position: 0 },
        0,
        "e247d5e7a53f59fe329e14dee3a3ba26abade97bca01a0849a79a060756fa7a6",
    ),
    (
        0,
        Holder::Entry { list: 1, position: 0 },
        0,
        "910bd561160da244c8a24cce97b5c0e4d1f37a52aaf39b4da20df6f41095dc42",
    ),
    (
        0,
        Holder::Entry { list: 0, position: 1 },
        0,
        "26dd287793d34df160e002a2c4c6a29f76882882da941bd3f41979ddd48c897a",
    ),
    (
        0,
        Holder::Entry { list: 23, position: 0 },
        0,
        "5d170a702bf375d1af19f7415e735befd2fd70bc6a6a6758db927690e5da3fb5",
    ),
    (
        1,
        Holder::Entry { list: 23, position: 255 },
        3,
        "7788d6a455b63778d1e621d281dd55b92fd3d871f4bc4ede7191b60e4dfb6edf",
    ),
    (
        1,
        Holder::Entry { list: 23, position: 256 },
        3,
        "ec47edbb262a83fd3ada4db5b3c4d6321de04ae0e80bf356b43b3b3c6e7fb406",
    ),
    (
        0x0C0C_0C0C,
        Holder::Entry { list: 0, position: 255 },
        1,
        "bfd59d27aafd99b0ad9418028cdfda1b4a337624baaa21c2372d54677fa8b060",
    ),
    (
        0x0102_0304,
        Holder::Entry { list: 1, position: 4095 },
        4,
        "64e9d02a5f952c64fcf75101da24b1aea0edfbd3ab01908d21f918adb5bc7882",
    ),
    (
        u32::MAX,
        Holder::Entry { list: 23, position: 4095 },
        5,
        "9f665640c447d401c91456fe11337e077e6425165e82d5fbf149448b6704c4fd",
    ),
];

#[test]
fn placed_commitments() {
    for (election, holder, slot, due) in PLACED {
        let scheme = Form::Numbered(election).scheme();
        let place = holder.slot(slot);
        assert_eq!(hex(&scheme.commitment(place, &opening())), due, "{election}, {place:?}");
        assert_eq!(hex(&scheme.six(holder, &[opening(); 6])[usize::from(slot)]), due);
    }
}

#[test]
fn seeds_masks_and_sides() {
    assert_eq!(seed(DICE, b"abc"), Q);
    assert_eq!([1, 2, 3, 12].map(|m| drawn_mask(m, Q)), [1, 12, 49, 3_396_806]);
    let sides: String = drawn_sides(4096, Q).iter().map(u8::to_string).collect();
    assert_eq!(sides[..40], *"0010011110101110000110101100110110010010");
    assert_eq!(sides[999..1024], *"1000010001001101001110101");
    assert_eq!(sides[..1024].matches('1').count(), 515);
    assert_eq!(sides[4056..], *"1101100010010110011100000111100110100110");
    assert_eq!(sides.matches('1').count(), 2006);
}

/// The mask drawn on as many bytes as part one has at most.
#[test]
fn mask_of_many_ballots() {
    let part_one = vec![0xA3; 20_074_504];
    assert_eq!(drawn_mask(12, &seed(DICE, &part_one)), 11_603_067);
}

/// Three ballots and two lists, every permutation another.
fn inputs() -> Inputs {
    Inputs {
        parameters: Parameters::unnumbered(1000, 3, 1),
        ids: vec![7, 300, 70_000],
        votes: vec![5, 900, 5],
        numbers: (1..=69).map(|k| (37 * k + 11) % 1000).collect(),
        permutations: vec![1, 2, 0, 0, 2, 1, 2, 1, 0, 2, 0, 1, 1, 0, 2, 0, 2, 1],
        keys: (1..=54).flat_map(|k| (0..32).map(move |at| (k + 5 * at) as u8)).collect(),
    }
}

/// Every byte of a drawn record.
#[test]
fn record() {
    let dice = [DICE.to_vec(), b"654321".repeat(5)];
    let record = board_with_dice(&mut Random::new(60), &inputs(), &dice, BOTH).record();
    assert_eq!(
        hex(&sha3_256(&record)),
        "7eb298fb436ff6ee193a170807cc9611591648635c12b24f780081d9ebfef05e"
    );
    assert_eq!(judge(&record, Judging::Drawn), Ok(vec![5, 5, 900]));
    assert_eq!(
        hex(&receipt(7, &record[8..205])),
        "000000072040116a0076eb613787e5674cc721f1caca63328dc001c4dfd7feec"
    );
}

/// The same with 0C first: the election's number, the first command, the mask and sides that are
/// drawn, the digest of every byte, and the receipt of the first ballot.
type Numbered = (u32, &'static str, u32, [u8; 3], &'static str, &'static str);

const NUMBERED: [Numbered; 5] = [
    (
        0,
        "0c00000000000003e8000301",
        1,
        [0, 0, 0],
        "22f971664889d39d7b8bedb55165267c91f846c2b887b170fe9bccd78e073b41",
        "000000079752d9198c1df23ef8f08eea218ea3171e8774e8dc7b65e77929a5a1",
    ),
    (
        1,
        "0c00000001000003e8000301",
        2,
        [0, 1, 0],
        "aa2c2a795e6693ab980bc82d34d752a0929392f4186cfaa7ef604e661d8a0120",
        "000000076b4b71041d4288b8d04f6ba520205b7820623dd18d9b89533f7dbc91",
    ),
    (
        0x0102_0304,
        "0c01020304000003e8000301",
        1,
        [1, 1, 0],
        "2995d3ce8a3f6c7c191806d5777c5040745f4508c9f6b108ad0aa9df8d579f9b",
        "0000000758dd545fe4d19bbfbfaacb31e4d913cd293636b10a912943313e389e",
    ),
    (
        0x0C0C_0C0C,
        "0c0c0c0c0c000003e8000301",
        1,
        [0, 1, 1],
        "157990f8501e04bcb0be36f90da27905be3c0e5ff77d969321d11afa1893b017",
        "00000007957ea9c60e30d7c845aa5d70e5fd696804cb471069df73d395107158",
    ),
    (
        u32::MAX,
        "0cffffffff000003e8000301",
        1,
        [0, 1, 1],
        "41f3643f551437a5f4d474f48370a895d860e88d0b8939912df48682a99b0e33",
        "00000007bd432b6ff4924da5946c7e9052728290fbddfca3fd464f9355ed67a3",
    ),
];

#[test]
fn numbered_records() {
    let dice = [DICE.to_vec(), b"654321".repeat(5)];
    for (election, first, mask, sides, digest, due) in NUMBERED {
        let mut inputs = inputs();
        inputs.parameters.form = Form::Numbered(election);
        let board = board_with_dice(&mut Random::new(62), &inputs, &dice, BOTH);
        let record = board.record();
        assert_eq!((&hex(&record[..12])[..], board.mask), (first, mask));
        assert_eq!([0, 1, 2].map(|j| board.parts[2][31 + 224 * j + 3]), sides);
        assert_eq!((record.len(), &hex(&sha3_256(&record))[..]), (3_229, digest));
        assert_eq!(judge(&record, Judging::Drawn), Ok(vec![5, 5, 900]));
        let printed = receipt(7, &record[12..209]);
        assert_eq!(check_receipt(&record, &printed), Ok(Posted::AsPrinted));
        assert_eq!(hex(&printed), due);
    }
}

/// 2m lists of n ballots, n being a power of two, with places, keys and numbers of every width.
fn many_inputs(n: u32, m: u32) -> Inputs {
    let (modulus, wide): (u32, u64) = (4_000_000_007, n.into());
    let number = |k: u64| ((k * 2_654_435_761 + 11) % u64::from(modulus)) as u32;
    let place = |c: u32, i: u32| (((6 * c + 5) * i + 77 * c + 1000) % n) as u16;
    let key = |k: u32| (0..32u32).map(move |at| ((k >> (8 * (at % 3))) + 5 * at) as u8);
    Inputs {
        parameters: Parameters::unnumbered(modulus, n, m),
        ids: (0..n).map(|j| 7 + 1_000_003 * j).collect(),
        votes: (0..wide).map(|j| number(j * j)).collect(),
        numbers: (1..=(5 + 18 * u64::from(m)) * wide).map(number).collect(),
        permutations: (0..6 * m).flat_map(|c| (0..n).map(move |i| place(c, i))).collect(),
        keys: (1..=(6 + 12 * m) * n).flat_map(key).collect(),
    }
}

/// Every byte of the largest record with two lists, of the largest that document 01 knew before
/// document 02's item 3, of the largest with 0C, and of one with all 24 lists.
#[test]
fn records_of_many_ballots() {
    let dice = [DICE.to_vec(), b"654321".repeat(5)];
    let numbered = Form::Numbered(0xE1EC_7104);
    for (form, n, m, digest) in [
        (
            Form::Unnumbered,
            1024,
            1,
            "74ba357a1abdeb772ac2bc0b47d3634d97669e6c621388ff8f85dba3486c68d7",
        ),
        (
            Form::Unnumbered,
            4096,
            1,
            "65a4e3241dfe6dc506dca2a2b8040bfe63650c41cf08ec1cfa8111b386c6322c",
        ),
        (numbered, 4096, 1, "2df420f5c6bab5ed0f5fc37fb5836bf44bbc85b0d44113f0040da43cb818513e"),
        (numbered, 8, 12, "82fed198d9e87ac6eced54c06805e22145c9d6a943f7e92d8c6dcd5f7b2d35d1"),
    ] {
        let mut inputs = many_inputs(n, m);
        inputs.parameters.form = form;
        let record = board_with_dice(&mut Random::new(61), &inputs, &dice, BOTH).record();
        assert_eq!(hex(&sha3_256(&record)), digest, "{n} ballots");
        assert_eq!(judge(&record, Judging::Drawn), Ok(sorted(&inputs.votes)));
    }
}
