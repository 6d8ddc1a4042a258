//! Writes boards with the reference's verdicts to standard output: honest and damaged ones of
//! either form, or with the argument `unnumbered` those of a time without 0C and the verdicts of
//! then, or with `uncopied` those without copied ballots, of which the verdicts are the same where
//! copies stand. Each has its length in 8 bytes, then for plain and for drawn judging the number in
//! 1 byte and the place in 8, then the record.

use std::env;
use std::io::{self, BufWriter, Write};

use paddockyear_tests::boards::copies::{ballots_alone, commitments};
use paddockyear_tests::boards::damage::{damaged_by, flipped};
use paddockyear_tests::boards::{honest, parameters_by, ALL_DRAWS, BOTH};
use paddockyear_tests::random::Random;
use paddockyear_tests::reference::judge::{judge_by, JUDGINGS};
use paddockyear_tests::reference::terms::{
    Commitment, Edition, Form, Parameters, COPIES_STAND, NOW,
};

fn put(out: &mut impl Write, edition: Edition, record: &[u8]) -> io::Result<()> {
    out.write_all(&(record.len() as u64).to_be_bytes())?;
    for judging in JUDGINGS {
        let verdict = judge_by(edition, record, judging);
        let fault = verdict.map_or_else(|f| (f.number, f.place as u64), |_| (0, 0));
        out.write_all(&[fault.0])?;
        out.write_all(&fault.1.to_be_bytes())?;
    }
    out.write_all(record)
}

fn put_honest(out: &mut impl Write, edition: Edition, random: &mut Random) -> io::Result<()> {
    for draws in ALL_DRAWS {
        for _ in 0..40 {
            let parameters = parameters_by(edition, random, 20, 12);
            put(out, edition, &honest(random, parameters, draws).record())?;
        }
    }
    for (n, m) in [(257, 3), (1000, 2), (1024, 1), (1024, 12), (1025, 1), (4096, 1)] {
        let parameters = Parameters::unnumbered(u32::MAX, n, m);
        put(out, edition, &honest(random, parameters, BOTH).record())?;
    }
    if edition.numbered {
        for n in [257, 4096] {
            let parameters = Parameters::numbered(n, u32::MAX, n, 1);
            put(out, edition, &honest(random, parameters, BOTH).record())?;
        }
    }
    Ok(())
}

fn put_damaged(out: &mut impl Write, edition: Edition, random: &mut Random) -> io::Result<()> {
    for judging in JUDGINGS {
        for _ in 0..2_000 {
            put(out, edition, &damaged_by(edition, random, (9, 3), judging).0)?;
        }
    }
    for _ in 0..1_500 {
        let parameters = parameters_by(edition, random, 3, 2);
        let record = honest(random, parameters, BOTH).record();
        put(out, edition, &flipped(random, &record))?;
        put(out, edition, &record[..random.index(record.len())])?;
    }
    Ok(())
}

/// Ballots of which each has six times one of its own six commitments, so that some are equal
/// inside it, and now and then one of any ballot's.
fn alike(random: &mut Random) -> Vec<[Commitment; 6]> {
    let (ballots, strangers) = (1 + random.index(9), random.index(3));
    let own = commitments(random, ballots);
    let mut of = |ballot: usize| match random.index(6 * own.len()) < strangers {
        true => own[random.index(own.len())][random.index(6)],
        false => own[ballot][random.index(6)],
    };
    (0..own.len()).map(|ballot| std::array::from_fn(|_| of(ballot))).collect()
}

/// Ballots alone, with equal commitments: whole, with a bit changed, and cut.
fn put_alike(out: &mut impl Write, edition: Edition, random: &mut Random) -> io::Result<()> {
    for form in [Form::Unnumbered, Form::Numbered(21)] {
        for _ in 0..1_000 {
            let record = ballots_alone(form, &alike(random));
            put(out, edition, &record)?;
            put(out, edition, &flipped(random, &record))?;
            put(out, edition, &record[..random.index(record.len())])?;
        }
    }
    Ok(())
}

fn main() -> io::Result<()> {
    let random = &mut Random::new(70);
    let out = &mut BufWriter::new(io::stdout().lock());
    let edition = match env::args().nth(1).as_deref() {
        Some("unnumbered") => Edition { numbered: false, ..COPIES_STAND },
        Some("uncopied") => COPIES_STAND,
        Some(other) => panic!("no boards are called {other}"),
        None => NOW,
    };
    put_honest(out, edition, random)?;
    put_damaged(out, edition, random)?;
    if edition == NOW {
        put_alike(out, edition, random)?;
    }
    out.flush()
}
