//! The reference against the worked cases and the examples of refusals.
//! Specification: Worked computations; Worked sessions; Table of refusals.

use crate::cases;
use crate::random::Random;
use crate::reference::machine::{
    run_command, Answer, Bodies, Lent, Place, BIT, BITS, OPEN, RESHARE, ROWS, STORE,
};
use crate::reference::protocols::{
    bit, bit_word, bits, carry_rounds, fold_rounds, ring_word, Parties, Party,
};
use crate::reference::{pool_text, session, Lengths, POOL_LENGTHS};
use crate::registers::Registers;

/// Stops with a message at the first difference.
pub fn check() {
    worked_session();
    worked_bits();
    carries_and_folds();
    bits_of_many_words();
    counts_of_the_table();
    commands_on_bad_lists();
    names_of_cases();
    texts_of_cases();
    registers_of_cases();
}

/// Worked cases 1 to 4: shares, received words and text.
fn worked_session() {
    let mut lent = POOL_LENGTHS.lend_zeros();
    let file = cases::worked().bytes();
    let outcome = session(&file, &mut lent);
    let shares = |handle: usize| [0, 1, 2].map(|i| lent.shares[i][handle - 1]);
    assert_eq!(shares(1), [1, 2, 4], "case 1");
    assert_eq!(shares(2), [3, 4, 4_294_967_294], "case 2");
    assert_eq!(shares(3), [4_294_967_149, 4_294_966_074, 1_404], "case 3");
    let sent = [4_294_967_129, 4_294_966_084, 1_414];
    assert_eq!(lent.received[3][..3], sent, "case 4: what the controller receives");
    assert_eq!(outcome.opened, [(3, 35)], "case 4: the word");
    assert_eq!(lent.received[0][..7], [1, 3, 50, 60, 24, 18, 90]);
    assert_eq!(lent.kinds[..4], [1, 1, 1, 0]);
    assert_eq!(lent.words[..4], [12, 12, 24, 2]);
    let text = pool_text(&file, &mut POOL_LENGTHS.lend_zeros());
    assert_eq!(text, "open 3 35\nend 4 7 7 7 3\n");
}

/// Worked cases 5 and 6.
fn worked_bits() {
    let with_tape = |tape: &[u32], shares| {
        let mut parties = Parties::default();
        parties.miners[0] = party(tape);
        bit(&mut parties, shares, 0)
    };
    assert_eq!(
        with_tape(&[1, 5, 0], [1, 0, 1]),
        [0, 5, 4_294_967_291],
        "case 5"
    );
    assert_eq!(
        with_tape(&[0, 5, 0], [0, 1, 0]),
        [0, 4_294_967_292, 5],
        "case 6"
    );
}

fn party(tape: &[u32]) -> Party<'_> {
    Party {
        tape,
        ..Party::default()
    }
}

/// Worked cases 7 to 9, with masks of several kinds.
fn carries_and_folds() {
    let mut random = Random::from_seed(7);
    let tapes = [0, 1, 2].map(|_| random.words(20));
    let masks = ([3, 1 << 31, 77], [u32::MAX, 5, 0]);
    let fresh = || Parties {
        miners: [0, 1, 2].map(|i| party(&tapes[i])),
        ..Parties::default()
    };
    let (v, r) = (1u32, u32::MAX);
    let carries = carry_rounds(&mut fresh(), masks, [0, v, r], [0, v & r, 0]);
    assert_eq!(bit_word(carries), u32::MAX, "case 7: carries");
    assert_eq!(v ^ r ^ (bit_word(carries) << 1), 0, "case 7: sum");
    let mut parties = fresh();
    let tape = [vec![u32::MAX], random.words(19)].concat();
    parties.miners[0] = party(&tape);
    assert_eq!(
        bit_word(bits(&mut parties, [9, 5, 0u32.wrapping_sub(14)])),
        0,
        "case 7"
    );
    let fold = |word: u32| bit_word(fold_rounds(&mut fresh(), masks.0, [word, 6, 6])) & 1;
    assert_eq!(fold(u32::MAX), 1, "case 8");
    assert_eq!(fold(u32::MAX - 1), 0, "case 9");
    (0..32).for_each(|position| assert_eq!(fold(!(1 << position)), 0));
}

/// Bits gives the word itself, whatever the shares and masks are.
fn bits_of_many_words() {
    let mut random = Random::from_seed(8);
    for _ in 0..1_000 {
        let tapes = [0, 1, 2].map(|_| random.words(15));
        let shares = [0, 1, 2].map(|_| random.word());
        let mut parties = Parties {
            miners: [0, 1, 2].map(|i| party(&tapes[i])),
            ..Parties::default()
        };
        assert_eq!(bit_word(bits(&mut parties, shares)), ring_word(shares));
    }
}

/// The tapes and lists suffice for 128 commands of any codes. Specification: Limits; Program.
fn counts_of_the_table() {
    for i in 0..3 {
        let drawn = ROWS.iter().map(|row| row.drawn[i + 1]).max().unwrap();
        assert!(drawn * 128 <= 2_304);
        let received = ROWS.iter().map(|row| row.received[i]).max().unwrap();
        assert!(received * 128 <= 3_584);
    }
}

/// Numbers 4, 8, 9, 11 and 12 on single commands.
fn commands_on_bad_lists() {
    let mut lent = POOL_LENGTHS.lend_zeros();
    let place = Place {
        handles: 1,
        ..Place::default()
    };
    lent.kinds[0] = 3;
    refuses(4, [STORE, 0, 0], place, &lent);
    lent.kinds[0] = 2;
    refuses(9, [BIT, 1, 32], place, &lent);
    refuses(8, [OPEN, 1, 0], place, &lent);
    lent.kinds[0] = 1;
    refuses(12, [RESHARE, 1, 0], place, &lent);
    refuses(11, [STORE, 0, 0], place, &lent);
    let beyond = Place {
        handles: 129,
        ..Place::default()
    };
    refuses(4, [0, 0, 0], beyond, &lent);
    let beyond = Place {
        received: [0, 0, 3_585, 0],
        ..Place::default()
    };
    refuses(4, [0, 0, 0], beyond, &lent);
    lent.shares[1].pop();
    refuses(4, [BITS, 1, 0], place, &lent);
}

/// The command, without inputs and with tape 2 empty, is refused with this number and changes
/// nothing.
fn refuses(number: u32, command: [u32; 3], place: Place, lent: &Lent) {
    let tape = [1; 20];
    let bodies = Bodies {
        inputs: &[],
        tapes: [&tape, &tape, &[], &tape],
    };
    let mut after = lent.clone();
    let answer = run_command(command, &bodies, place, &mut after);
    let opened = 0;
    assert_eq!(
        answer,
        Answer {
            number,
            place,
            opened
        }
    );
    assert!(after == *lent);
}

/// Names are file names of lower-case letters, digits and underscores, no two alike.
fn names_of_cases() {
    let mut names: Vec<String> = cases::all().into_iter().map(|case| case.name).collect();
    let plain = |letter: char| matches!(letter, 'a'..='z' | '0'..='9' | '_');
    assert!(names.iter().all(|name| name.chars().all(plain)));
    names.sort();
    assert!(names.windows(2).all(|pair| pair[0] != pair[1]));
}

/// What `pool` prints for a case under one lending.
fn text(name: &str, lengths: Lengths) -> String {
    let all = cases::all();
    let case = all.iter().find(|case| case.name == name);
    pool_text(&case.expect(name).bytes, &mut lengths.lend_zeros())
}

/// Texts that follow from the specification without running anything.
fn texts_of_cases() {
    let [own, small, word_too_few, kinds_too_short] = cases::lendings();
    assert_eq!(text("empty", own), "end 0 0 0 0 0\n");
    assert_eq!(text("empty", small), "end 0 0 0 0 0\n");
    assert_eq!(text("worked", word_too_few), "refused 4\n");
    assert_eq!(text("worked", kinds_too_short), "refused 4\n");
    assert_eq!(text("bytes_30769", word_too_few), "refused 3\n");
    assert_eq!(text("refused_10_second_store", small), "refused 10 at 1\n");
    assert_eq!(
        text("refused_13_open_controller_2", small),
        "refused 13 at 1\n"
    );
    assert_eq!(text("both_10_11", small), "refused 10 at 1\n");
    assert_eq!(text("both_10_12", small), "refused 10 at 1\n");
    assert_eq!(text("both_12_13", small), "refused 12 at 1\n");
    for (name, line) in [
        ("case_10_65536_times_65536", "open 3 0\nend 4 7 7 7 3\n"),
        ("case_11_3_below_5", "open 3 1\nend 4 25 31 31 3\n"),
        ("case_11_5_below_5", "open 3 0\nend 4 25 31 31 3\n"),
        ("case_12_top_below_0", "open 3 1\nend 4 25 31 31 3\n"),
        ("stumbles_times_hours", "open 11 971\nend 12 19 19 19 3\n"),
        (
            "setting_codes_compared",
            "open 5 1\nopen 6 0\nend 8 28 36 36 6\n",
        ),
        ("two_totals_ranked", "open 11 1\nend 12 29 35 35 3\n"),
        ("stops_at_refusal", "open 1 7\nrefused 7 at 2\n"),
        ("refused_05_code_0", "refused 5 at 0\n"),
        ("refused_01_47_bytes", "refused 1\n"),
    ] {
        assert_eq!(text(name, own), line, "{name}");
    }
}

/// Every case is answered with its number, and its shares combine to the registers' words.
fn registers_of_cases() {
    for case in cases::all() {
        let mut lent = POOL_LENGTHS.lend_zeros();
        let text = pool_text(&case.bytes, &mut lent);
        let last = text.lines().last().unwrap();
        let answered = match last.strip_prefix("refused ") {
            Some(rest) => rest.split(' ').next().unwrap().parse().unwrap(),
            None => 0,
        };
        assert_eq!(answered, case.number, "{}", case.name);
        if lent.words[0] != 12 {
            continue;
        }
        let mut lent = POOL_LENGTHS.lend_zeros();
        let outcome = session(&case.bytes, &mut lent);
        let (first, count) = (lent.words[2] as usize, lent.words[3] as usize);
        let inputs = &lent.words[first..first + count];
        let commands = &lent.words[12..12 + 3 * outcome.done];
        let registers = Registers::after(commands, inputs);
        assert_eq!(registers.first_unlike(&lent), None, "{}", case.name);
        assert_eq!(registers.opened, outcome.opened, "{}", case.name);
        assert_eq!(registers.values.len(), outcome.place.handles);
    }
}
