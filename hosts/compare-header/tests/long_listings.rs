//! Listings of tens of thousands of bytes and more, into outputs that they
//! fill, that are a byte short, and of sizes that a buffer might have.

use compare_header::answers::Answers;
use compare_header::writes;
use generator::fields::Fields;
use generator::large::{agreeing, plain, LONGEST};
use generator::lines::listing;
use generator::Key;

/// Room that a fixed buffer might have.
const ROOMS: [usize; 6] = [65_535, 65_536, 69_999, 70_000, 70_001, 131_072];

/// Into each output that the listing fills or doesn't; the text is that of
/// the fields, and what lies behind it is kept.
fn list(answers: &mut Answers, fields: &Fields) -> usize {
    let message = fields.image().bytes;
    let text = listing(fields);
    let length = text.len();
    for room in ROOMS.into_iter().chain([length - 1, length, length + 9]) {
        let (answer, out) = writes::write_listing(&message, &vec![0x11; room]);
        if room < length {
            answers.met(&answer, 28);
            continue;
        }
        answers.met(&answer, 0);
        assert!(out.starts_with(text.as_bytes()), "the listing");
        assert!(out[length..].iter().all(|&byte| byte == 0x11), "behind it");
    }
    length
}

/// How many of the outputs hold a listing of this length.
fn fitting(listed: usize) -> u64 {
    ROOMS.iter().filter(|&&room| room >= listed).count() as u64 + 2
}

/// A version's fields with one key whose ciphertext has this length.
fn long(version: u32, length: usize) -> Fields {
    let mut fields = plain(version);
    let bytes = (0..length).map(|at| at as u8).collect();
    fields.keys = vec![[b"p".to_vec(), Vec::new(), bytes]];
    fields
}

/// Of every length around 65,536 and 70,000 that the parity allows, and around
/// twice 65,536. The shortest listings are of odd lengths, the tail in them has
/// two digits, and a long one's five: so each long listing's length is even,
/// and the twelve go from ten bytes below to twelve above.
#[test]
fn one_long_part() {
    let mut answers = Answers::default();
    let mut accepted = 0;
    for version in [1, 2] {
        let shortest = listing(&long(version, 0)).len();
        for around in [65_536, 70_000, 131_072] {
            let digits = |more: usize| (around + 2 * more - 12 - shortest) / 2;
            for (nth, length) in (0..12).map(digits).enumerate() {
                assert!(length <= LONGEST, "{length}");
                let listed = list(&mut answers, &long(version, length));
                assert_eq!(listed, around - 10 + 2 * nth);
                accepted += fitting(listed);
            }
        }
    }
    // Of each twelve, six are no longer than `around`, and five shorter. All
    // fit the rooms above, and two of their own.
    let below = [5 + 6 + 4 * 12, 5 + 6 + 6 + 12, 6].iter().sum::<u64>();
    let lists = 2 * 3 * 12;
    assert_eq!(accepted, 2 * below + 2 * lists);
    let wanted = [(0, accepted), (28, 9 * lists - accepted)];
    answers.assert_are("listings of about 65,536 to 131,072 bytes", &wanted);
}

/// Many parts, up to what the tables hold, and messages longer than the
/// program reads.
#[test]
fn many_long_parts() {
    let mut answers = Answers::default();
    let key = |length: usize| -> Key {
        let bytes = vec![0xAB; length];
        [vec![b'p'; length], bytes.clone(), bytes]
    };
    for version in [1, 2] {
        let mut fields = plain(version);
        fields.pairs = agreeing(50, 4, 1_000);
        fields.keys = vec![key(1)];
        // All outputs of a buffer's size but the largest are too short.
        let listed = list(&mut answers, &fields);
        assert!(listed > 100_000 && listed < 131_072, "{listed}");
        fields.keys = vec![key(64); 682];
        assert!(list(&mut answers, &fields) > 262_144);
        fields.keys = vec![key(LONGEST); 3];
        assert!(list(&mut answers, &fields) > 1_048_576);
    }
    // Each fits the two outputs of its own length and more; one that size.
    let wanted = [(0, 2 * (3 * 2 + 1)), (28, 2 * (3 * 7 - 1))];
    answers.assert_are("listings of up to a megabyte", &wanted);
}

/// The program reads 65,536 bytes of a message; here it is taken whole.
#[test]
fn messages_longer_than_the_program_reads() {
    let mut answers = Answers::default();
    let mut accepted = 0;
    let lengths = [65_536, 65_537, 65_600, 70_000, 70_001, 100_000, 131_072];
    for length in lengths {
        for version in [1, 2] {
            let mut fields = plain(version);
            fields.keys = vec![Key::default(); 3];
            let mut rest = length - fields.image().bytes.len();
            for key in &mut fields.keys {
                let taken = rest.min(50_000);
                key[1] = vec![0xCD; taken];
                rest -= taken;
            }
            assert_eq!(fields.image().bytes.len(), length);
            let listed = list(&mut answers, &fields);
            assert!(listed > 130_900, "{listed}");
            accepted += fitting(listed);
        }
    }
    let lists = 2 * lengths.len() as u64;
    let wanted = [(0, accepted), (28, 9 * lists - accepted)];
    assert!(accepted >= 2 * lists && accepted < 3 * lists, "{accepted}");
    answers.assert_are("listings of long messages", &wanted);
}
