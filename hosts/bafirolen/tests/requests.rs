//! What a reader is asked for, and what the archive is.

mod common;

use bafirolen::*;
use common::H;

#[test]
fn requests_are_chained() {
    assert_eq!(Request::new(), Request::default());
    let request = Request::default();
    assert_eq!(request.which, Which::Either);
    assert_eq!((request.mode, request.max), (Mode::Tolerant, None));
    assert_eq!(request.policy, None);
    let mut wanted = request;
    wanted.mode = Mode::Strict;
    assert_eq!(request.strict(), wanted);
    wanted.which = Which::V1Only;
    assert_eq!(request.strict().only(Which::V1Only), wanted);
    wanted.max = Some(3);
    assert_eq!(request.at_most(3).only(Which::V1Only).strict(), wanted);
    let policy = Policy::RequireEncryptAllowDecrypt;
    wanted.policy = Some(policy);
    let asked = request.under(policy).at_most(3).only(Which::V1Only);
    assert_eq!(asked.strict(), wanted);
}

/// H, with the old form of an empty context if asked for.
fn answer(old: bool, request: Request) -> Result<u64, Refusal> {
    let mut message = H.to_vec();
    if old {
        message.splice(20..34, [0, 2, 0, 0]);
    }
    read_header_body(&message, 0, request, &mut [0; 4], &mut [0; 6]).map(|body| body.tail)
}

#[test]
fn each_part_of_a_request_is_asked() {
    let request = Request::default();
    assert_eq!(answer(false, request), Ok(58));
    assert_eq!(answer(true, request), Ok(48));
    assert_eq!(answer(false, request.strict()), Ok(58));
    assert_eq!(
        answer(true, request.strict()),
        Err(Refusal::OldEmptyContext)
    );
    assert_eq!(answer(false, request.only(Which::V1Only)), Ok(58));
    assert_eq!(
        answer(false, request.only(Which::V2Only)),
        Err(Refusal::OtherVersion)
    );
    assert_eq!(answer(false, request.at_most(1)), Ok(58));
    assert_eq!(answer(false, request.at_most(0)), Err(Refusal::TooManyKeys));
    let policy = Policy::RequireEncryptAllowDecrypt;
    assert_eq!(answer(true, request.under(policy)), Ok(48));
    let policy = Policy::RequireEncryptRequireDecrypt;
    let refused = answer(true, request.under(policy));
    assert_eq!(refused, Err(Refusal::ForbiddenByPolicy));
}

#[test]
fn tables_of_the_lengths_named() {
    assert_eq!((NUMBERS_PER_PAIR, NUMBERS_PER_KEY), (4, 6));
    let read = |pairs: usize, keys: usize| {
        let (mut pairs, mut keys) = (vec![0; pairs], vec![0; keys]);
        read_header_body(H, 0, Request::default(), &mut pairs, &mut keys).map(|body| body.tail)
    };
    assert_eq!(read(NUMBERS_PER_PAIR, NUMBERS_PER_KEY), Ok(58));
    assert_eq!(read(3, 6), Err(Refusal::PairTableTooShort));
    assert_eq!(read(4, 5), Err(Refusal::KeyTableTooShort));
    // As many keys as can be counted, all empty, fill the largest table.
    let mut message = vec![0xFF, 0xFF];
    message.resize(2 + 6 * 65_535, 0);
    let mut table = vec![1; LARGEST_KEY_TABLE];
    let section = read_encrypted_data_keys_section(&message, 0, None, &mut table).unwrap();
    assert_eq!(section.key_table().len(), LARGEST_KEY_TABLE);
    // Pairs of the least length, four bytes, would fill the other one.
    assert_eq!(LARGEST_PAIR_TABLE, 4 * (65_533 / 4));
}

#[test]
fn the_archive_is_of_these_declarations() {
    assert_eq!(version(), bafirolen_sys::VERSION);
    assert_eq!(VERSION, bafirolen_sys::VERSION);
}
