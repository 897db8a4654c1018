//! Refusals: their numbers, words and remedies.

use bafirolen::{find_value, Refusal, Remedy};
use std::error::Error;

const README: &str = include_str!("../../../README.md");

/// Every refusal in the order of its number.
const ALL: [Refusal; 40] = [
    Refusal::NotAddressable,
    Refusal::Shortage { position: 0 },
    Refusal::UnknownVersion,
    Refusal::OtherVersion,
    Refusal::MessageType,
    Refusal::UnknownSuite,
    Refusal::SuiteOfOtherVersion,
    Refusal::CountInEmptyContext,
    Refusal::NoCountInContext,
    Refusal::KeyNotUtf8,
    Refusal::ValueNotUtf8,
    Refusal::KeySeenBefore,
    Refusal::PairsTooLong,
    Refusal::ContextLength,
    Refusal::TooManyKeys,
    Refusal::ProviderIdNotUtf8,
    Refusal::ContentType,
    Refusal::ReservedBytes,
    Refusal::IvLength,
    Refusal::FrameLength,
    Refusal::OldEmptyContext,
    Refusal::PairTableTooShort,
    Refusal::KeyTableTooShort,
    Refusal::IdLength,
    Refusal::SuiteDataLength,
    Refusal::TableOrPlace,
    Refusal::CountOrPartTooLong,
    Refusal::OutputTooShort,
    Refusal::NotFound,
    Refusal::TagLength,
    Refusal::RequiredTableOrPlace,
    Refusal::PastSection,
    Refusal::PairInOldForm,
    Refusal::SequenceNumber,
    Refusal::FinalContentTooLong,
    Refusal::NoFrame,
    Refusal::RegularContentLength,
    Refusal::NoEncryptedDataKey,
    Refusal::ForbiddenByPolicy,
    Refusal::NoKeyRemains,
];

#[test]
fn each_has_the_number_and_words_of_the_table() {
    let mut rows = README
        .lines()
        .skip_while(|line| !line.starts_with("| number | meaning |"))
        .skip(2)
        .take_while(|line| line.starts_with('|'));
    for (refusal, nth) in ALL.into_iter().zip(1..) {
        let row = rows.next().expect("a row of the table");
        let cells: Vec<&str> = row.split('|').map(str::trim).collect();
        assert_eq!(cells[1], nth.to_string());
        assert_eq!(cells[2], refusal.text());
        assert_eq!(refusal.number(), nth);
        if nth != 2 {
            assert_eq!(
                refusal.to_string(),
                format!("refusal {nth}: {}", refusal.text())
            );
        }
    }
    assert_eq!(rows.next(), None);
}

#[test]
fn numbers_and_positions_are_kept() {
    for (refusal, number) in ALL.into_iter().zip(1..) {
        assert_eq!(Refusal::from_number(number, 0), refusal);
        let other = Refusal::from_number(number, 7);
        assert_eq!((other.number(), other.position()), (number, 7));
        assert_eq!(matches!(other, Refusal::Unlisted { .. }), number != 2);
    }
    for number in [0, 41, 256, 258, u32::MAX] {
        for position in [0, 9] {
            let refusal = Refusal::from_number(number, position);
            assert_eq!(refusal, Refusal::Unlisted { number, position });
            assert_eq!((refusal.number(), refusal.position()), (number, position));
            assert!(ALL.iter().all(|listed| listed.text() != refusal.text()));
        }
    }
}

#[test]
fn each_has_its_remedy() {
    for (refusal, number) in ALL.into_iter().zip(1..) {
        let wanted = match number {
            2 => Remedy::Wait { position: 0 },
            22 | 23 | 28 => Remedy::LendMore,
            _ => Remedy::Reject,
        };
        assert_eq!(refusal.remedy(), wanted, "{refusal}");
    }
    let far = Refusal::Shortage { position: 1 << 32 };
    assert_eq!(far.remedy(), Remedy::Wait { position: 1 << 32 });
    assert_eq!(Refusal::from_number(41, 5).remedy(), Remedy::Reject);
}

#[test]
fn a_refusal_is_an_error() {
    let refused: Box<dyn Error> = find_value(&[0], 0, b"key").unwrap_err().into();
    assert_eq!(
        refused.to_string(),
        "refusal 2: the message does not reach position 2"
    );
    let refused = find_value(&[0, 0], 0, b"key").unwrap_err();
    assert_eq!(refused, Refusal::NotFound);
    assert_eq!(refused.to_string(), "refusal 29: no pair has the key");
}

/// Document 02: in 00 04 00 01 00 05 the key would end past the section, which
/// no bytes can mend. They are waited for up to the section's end, and not
/// beyond it.
#[test]
fn what_goes_past_its_section_is_not_waited_for() {
    let whole = b"\x00\x04\x00\x01\x00\x05abcde\x00\x00";
    let answer = |length: usize| find_value(&whole[..length], 0, b"abcde").unwrap_err();
    for length in 0..2 {
        assert_eq!(answer(length), Refusal::Shortage { position: 2 });
    }
    for length in 2..6 {
        assert_eq!(answer(length), Refusal::Shortage { position: 6 });
    }
    for length in 6..=13 {
        assert_eq!(answer(length), Refusal::PastSection);
        assert_eq!(answer(length).remedy(), Remedy::Reject);
    }
}
