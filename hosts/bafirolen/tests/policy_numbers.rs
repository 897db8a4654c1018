//! Policies as numbers, which only the declarations take: 0 is none, and a
//! number without a name stands for the policy that reads least.

mod common;

use bafirolen_sys::*;
use common::H;

const ACCEPTED: u64 = 0;
const FORBIDDEN: u64 = 39;

/// Numbers that name no policy, of which some have a named one in their lowest
/// bits.
const UNNAMED: [u32; 9] = [
    4,
    5,
    0x80,
    0xFF,
    0x100,
    0x1_0001,
    0x8000_0000,
    u32::MAX - 1,
    u32::MAX,
];

/// H without its pair, and a header of version 2 of the same fields.
fn headers() -> [Vec<u8>; 2] {
    [
        [&H[..20], &[0, 0], &H[34..]].concat(),
        [
            &[2, 0x05, 0x78],
            &H[..32],
            &[0, 0],
            &H[34..49],
            &H[54..],
            &H[26..58],
        ]
        .concat(),
    ]
}

/// A record, and the tables or the output afterwards.
type Read = (BafirolenBody, [u32; 4], [u32; 8]);
type Written = (BafirolenWritten, [u8; 100], BafirolenWritten);

/// The message read under a number, or by the function without one.
fn read(message: &[u8], policy: Option<u32>) -> Read {
    let (mut pairs, mut keys) = ([7; 4], [7; 8]);
    let (m, n) = (message.as_ptr(), message.len());
    let (p, k) = (pairs.as_mut_ptr(), keys.as_mut_ptr());
    // SAFETY: pointers and lengths are the slices', and the tables lie apart.
    let body = unsafe {
        match policy {
            None => bafirolen_read_header_body(m, n, 0, 0, 0, 0, 0, p, 4, k, 8),
            Some(policy) => {
                bafirolen_read_header_body_under_policy(m, n, 0, 0, 0, 0, 0, policy, p, 4, k, 8)
            }
        }
    };
    (body, pairs, keys)
}

/// What was read, written again and measured likewise.
fn write(message: &[u8], policy: Option<u32>) -> Written {
    let (body, _, keys) = read(message, None);
    assert_eq!(body.number, ACCEPTED);
    let part = |start: u64, len: u64| message[start as usize..][..len as usize].as_ptr();
    let (id, data) = (
        part(body.message_id_start, body.message_id_len),
        part(body.suite_data_start, body.suite_data_len),
    );
    let (id_len, data_len) = (body.message_id_len as usize, body.suite_data_len as usize);
    let (n, m, m_len, k) = (body.numbers, message.as_ptr(), message.len(), keys.as_ptr());
    let mut out = [0xEE; 100];
    let (p, o, o_len) = (keys.as_ptr(), out.as_mut_ptr(), out.len());
    // SAFETY: pointers and lengths are the slices', and the output lies apart.
    let (written, length) = unsafe {
        match policy {
            None => (
                bafirolen_write_header_body(
                    n, id, id_len, data, data_len, m, m_len, p, 0, k, 6, o, o_len,
                ),
                bafirolen_header_body_len(n, id, id_len, data, data_len, m, m_len, p, 0, k, 6),
            ),
            Some(policy) => (
                bafirolen_write_header_body_under_policy(
                    n, policy, id, id_len, data, data_len, m, m_len, p, 0, k, 6, o, o_len,
                ),
                bafirolen_header_body_len_under_policy(
                    n, policy, id, id_len, data, data_len, m, m_len, p, 0, k, 6,
                ),
            ),
        }
    };
    (written, out, length)
}

/// Of versions 1 and 2, what is answered to a read, a write and a length.
fn answered(policy: u32) -> [[u64; 3]; 2] {
    headers().map(|header| {
        let (written, _, length) = write(&header, Some(policy));
        let (body, ..) = read(&header, Some(policy));
        [body.number, written.number, length.number]
    })
}

#[test]
fn named() {
    const A: u64 = ACCEPTED;
    const F: u64 = FORBIDDEN;
    assert_eq!(answered(NO_POLICY), [[A, A, A], [A, A, A]]);
    let forbid_encrypt = answered(FORBID_ENCRYPT_ALLOW_DECRYPT);
    assert_eq!(forbid_encrypt, [[A, A, A], [A, F, F]]);
    let allow_decrypt = answered(REQUIRE_ENCRYPT_ALLOW_DECRYPT);
    assert_eq!(allow_decrypt, [[A, F, F], [A, A, A]]);
    let require_decrypt = answered(REQUIRE_ENCRYPT_REQUIRE_DECRYPT);
    assert_eq!(require_decrypt, [[F, F, F], [A, A, A]]);
}

#[test]
fn unnamed() {
    for header in headers() {
        let last = Some(REQUIRE_ENCRYPT_REQUIRE_DECRYPT);
        for number in UNNAMED {
            assert_eq!(read(&header, Some(number)), read(&header, last));
            assert_eq!(write(&header, Some(number)), write(&header, last));
        }
    }
}

/// Where a policy forbids nothing, all is as without one; where it forbids,
/// every other field is 0, and what was lent keeps.
#[test]
fn beside_the_functions_without() {
    for header in headers() {
        let (read_without, written_without) = (read(&header, None), write(&header, None));
        assert_eq!(written_without.0.length, header.len() as u64);
        assert_eq!(written_without.1[..header.len()], header);
        for policy in 0..=4 {
            let got = read(&header, Some(policy));
            if got.0.number == ACCEPTED {
                assert_eq!(got, read_without);
            } else {
                assert_eq!((got.0.number, got.0.position), (FORBIDDEN, 0));
                assert_eq!((got.0.numbers, got.0.tail), Default::default());
                assert_eq!((got.1, got.2), ([7; 4], [7; 8]));
            }
            let got = write(&header, Some(policy));
            if got.0.number == ACCEPTED {
                assert_eq!(got, written_without);
            } else {
                assert_eq!((got.0.number, got.0.position), (FORBIDDEN, 0));
                assert_eq!((got.0.length, got.1), (0, [0xEE; 100]));
                assert_eq!(got.2, got.0);
            }
        }
    }
}
