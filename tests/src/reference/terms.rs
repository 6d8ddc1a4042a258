//! Document 01's terms: parameters, numbers, openings, commitments, and the refusals' numbers.

use std::collections::HashSet;

use super::sha3::sha3_256;

/// The numbers of the papers' refusals.
pub mod refusal {
    pub const STOPS: u8 = 1;
    pub const NOT_DUE: u8 = 2;
    pub const LIMITS: u8 = 3;
    pub const OPERAND: u8 = 4;
    pub const ID: u8 = 5;
    pub const DICE: u8 = 6;
    pub const MASK_SHAPE: u8 = 7;
    pub const MASK_DRAWN: u8 = 8;
    pub const POSITION: u8 = 9;
    pub const NUMBER: u8 = 10;
    pub const SIDE: u8 = 11;
    pub const SIDE_DRAWN: u8 = 12;
    pub const OPENING: u8 = 13;
    pub const HALVES: u8 = 14;
    pub const VOTE_FALLS: u8 = 15;
    pub const OPENED_LIST: u8 = 16;
    pub const BEHIND: u8 = 17;
    pub const LENGTH: u8 = 18;
    pub const PERMUTATION: u8 = 19;
    pub const CANDIDATES: u8 = 20;
    pub const COPIED_BALLOT: u8 = 21;
    pub const DAY: u8 = 22;
}

/// By document 02's item 3.
pub const MAX_BALLOTS: u32 = 4096;
/// What document 01 said before that item; stored records have no more.
pub const FORMER_MAX_BALLOTS: u32 = 1024;
pub const MAX_M: u32 = 12;
pub const DICE: usize = 30;

/// What a record may be: n's limit, whether 0C may stand first, whether commitments behind it know
/// their place, and whether copied ballots stand.
#[derive(Clone, Copy, Debug, PartialEq, Eq)]
pub struct Edition {
    pub most_ballots: u32,
    pub numbered: bool,
    pub placed: bool,
    pub copies: bool,
}

impl Edition {
    /// What a commitment of a record of this form is made of.
    pub fn scheme(self, form: Form) -> Scheme {
        match self.placed {
            true => form.scheme(),
            false => Scheme::Bare,
        }
    }
}

pub const NOW: Edition =
    Edition { most_ballots: MAX_BALLOTS, numbered: true, placed: true, copies: false };
/// Without document 02's item 5.
pub const COPIES_STAND: Edition = Edition { copies: true, ..NOW };
/// Before document 02's item 8.
pub const UNPLACED: Edition = Edition { placed: false, ..NOW };
/// Document 01's own, before document 02's items 3, 4, 5 and 8.
pub const FORMER: Edition =
    Edition { most_ballots: FORMER_MAX_BALLOTS, numbered: false, placed: false, copies: true };

/// Which command stands first: 01, or 0C with the election's number.
#[derive(Clone, Copy, Debug, PartialEq, Eq)]
pub enum Form {
    Unnumbered,
    Numbered(u32),
}

impl Form {
    /// The first command's byte.
    pub fn code(self) -> u8 {
        match self {
            Form::Unnumbered => 0x01,
            Form::Numbered(_) => 0x0C,
        }
    }

    /// The first command's bytes, its code included: what stands before the first ballot.
    pub fn width(self) -> usize {
        match self {
            Form::Unnumbered => 8,
            Form::Numbered(_) => 12,
        }
    }

    /// What a commitment of such a record is made of.
    pub fn scheme(self) -> Scheme {
        match self {
            Form::Unnumbered => Scheme::Bare,
            Form::Numbered(election) => Scheme::Placed { election },
        }
    }
}

/// The form, and M, n and m, wide enough to be wrong.
#[derive(Clone, Copy, Debug, PartialEq, Eq)]
pub struct Parameters {
    pub form: Form,
    pub modulus: u32,
    pub n: u32,
    pub m: u32,
}

impl Parameters {
    pub const fn unnumbered(modulus: u32, n: u32, m: u32) -> Self {
        Parameters { form: Form::Unnumbered, modulus, n, m }
    }

    pub const fn numbered(election: u32, modulus: u32, n: u32, m: u32) -> Self {
        Parameters { form: Form::Numbered(election), modulus, n, m }
    }

    pub fn within_limits(&self) -> bool {
        self.within(MAX_BALLOTS)
    }

    /// Whether they are within the limits, `most_ballots` being n's.
    pub fn within(&self, most_ballots: u32) -> bool {
        self.modulus >= 2 && (1..=most_ballots).contains(&self.n) && (1..=MAX_M).contains(&self.m)
    }

    pub fn ballots(&self) -> usize {
        self.n as usize
    }

    pub fn lists(&self) -> usize {
        2 * self.m as usize
    }

    /// The lengths of the servers' three parts.
    pub fn part_lengths(&self) -> [usize; 3] {
        let (n, mn) = (self.ballots(), self.m as usize * self.ballots());
        [self.form.width() + 197 * n + 392 * mn, 35 + 10 * mn, 32 + 119 * n + 332 * mn]
    }

    /// The length of the whole record.
    pub fn record_length(&self) -> usize {
        let (n, m) = (self.ballots(), self.m as usize);
        let longer = match self.form {
            Form::Unnumbered => 0,
            Form::Numbered(_) => 4,
        };
        longer + 75 + 316 * n + 734 * m * n
    }
}

pub fn ballots_within_limits(n: u32) -> bool {
    (1..=MAX_BALLOTS).contains(&n)
}

/// The sum modulo M.
pub fn sum(modulus: u32, numbers: &[u32]) -> u32 {
    let total: u64 = numbers.iter().map(|&number| u64::from(number)).sum();
    (total % u64::from(modulus)) as u32
}

/// a - b modulo M.
pub fn difference(modulus: u32, a: u32, b: u32) -> u32 {
    (i64::from(a) - i64::from(b)).rem_euclid(i64::from(modulus)) as u32
}

pub type Commitment = [u8; 32];

/// A key and then a number.
#[derive(Clone, Copy, Debug, PartialEq, Eq)]
pub struct Opening {
    pub key: [u8; 32],
    pub number: u32,
}

impl Opening {
    pub fn to_bytes(&self) -> [u8; 36] {
        let mut bytes = [0; 36];
        bytes[..32].copy_from_slice(&self.key);
        bytes[32..].copy_from_slice(&self.number.to_be_bytes());
        bytes
    }
}

/// What has six commitments: a ballot, by its id, or an entry of a list, by its position.
#[derive(Clone, Copy, Debug, PartialEq, Eq)]
pub enum Holder {
    Ballot { id: u32 },
    Entry { list: u8, position: u32 },
}

impl Holder {
    pub fn entry(list: usize, position: usize) -> Self {
        Holder::Entry { list: list as u8, position: position as u32 }
    }

    /// One of its places; slots are 0 to 5 in the order u1, v1, u2, v2, u3, v3.
    pub fn slot(self, slot: u8) -> Place {
        Place { holder: self, slot }
    }

    /// All six of them.
    pub fn places(self) -> [Place; 6] {
        [0, 1, 2, 3, 4, 5].map(|slot| self.slot(slot))
    }
}

/// Where a commitment is posted.
#[derive(Clone, Copy, Debug, PartialEq, Eq)]
pub struct Place {
    pub holder: Holder,
    pub slot: u8,
}

impl Place {
    /// Slot, list and id or position, as they are hashed.
    fn to_bytes(self) -> [u8; 6] {
        let (list, index) = match self.holder {
            Holder::Ballot { id } => (255, id),
            Holder::Entry { list, position } => (list, position),
        };
        let [a, b, c, d] = index.to_be_bytes();
        [self.slot, list, a, b, c, d]
    }
}

/// What a commitment is made of: the opening alone, or by document 02's item 8 the election's
/// number and its place as well.
#[derive(Clone, Copy, Debug, PartialEq, Eq)]
pub enum Scheme {
    Bare,
    Placed { election: u32 },
}

impl Scheme {
    pub fn commitment(self, place: Place, opening: &Opening) -> Commitment {
        let mut bytes = opening.to_bytes().to_vec();
        if let Scheme::Placed { election } = self {
            bytes.extend(election.to_be_bytes());
            bytes.extend(place.to_bytes());
        }
        sha3_256(&bytes)
    }

    /// The six of a ballot or entry.
    pub fn six(self, holder: Holder, openings: &[Opening; 6]) -> [Commitment; 6] {
        let places = holder.places();
        std::array::from_fn(|slot| self.commitment(places[slot], &openings[slot]))
    }
}

/// The commitments of the ballots so far.
#[derive(Default)]
pub struct EarlierBallots(HashSet<Commitment>);

impl EarlierBallots {
    /// Whether the next ballot has a commitment of an earlier one, at whichever places. It is
    /// compared before its own are among them: equal ones inside one ballot stand.
    pub fn copied_by(&mut self, six: &[Commitment; 6]) -> bool {
        let copied = six.iter().any(|commitment| self.0.contains(commitment));
        self.0.extend(six);
        copied
    }
}

/// Six openings or commitments stand in the order u1, v1, u2, v2, u3, v3: this side's three.
pub fn of_side<T: Copy>(six: &[T; 6], side: u8) -> [T; 3] {
    let side = usize::from(side);
    [six[side], six[2 + side], six[4 + side]]
}

pub fn die_is_fair(character: &u8) -> bool {
    (b'1'..=b'6').contains(character)
}

/// Exactly m ones and no bit at 2m or above.
pub fn mask_stands(m: u32, mask: u32) -> bool {
    mask.count_ones() == m && (mask >> (2 * m)) == 0
}

/// The lists whose bit is set, rising, or those whose bit is not.
pub fn lists_of(m: u32, mask: u32, compared: bool) -> Vec<usize> {
    (0..2 * m as usize).filter(|list| (mask >> list & 1 == 1) == compared).collect()
}

/// On side 0 the ballot's sum is the list's plus t, on side 1 the list's minus t.
pub fn halves_agree(modulus: u32, side: u8, ballot: [u32; 3], list: [u32; 3], t: u32) -> bool {
    let list = sum(modulus, &list);
    let due = match side {
        0 => sum(modulus, &[list, t]),
        _ => difference(modulus, list, t),
    };
    sum(modulus, &ballot) == due
}

/// The same numbers, each as often.
pub fn is_permutation_of(a: &[u32], b: &[u32]) -> bool {
    sorted(a) == sorted(b)
}

pub fn sorted(numbers: &[u32]) -> Vec<u32> {
    let mut sorted = numbers.to_vec();
    sorted.sort_unstable();
    sorted
}
