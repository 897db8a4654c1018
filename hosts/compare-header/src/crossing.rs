//! Bodies read, measured and written by the functions as they cross the
//! boundary: under the policy of a number, or by those that take none; and
//! drafts mended and reissued.
#![allow(unsafe_code)]

use crate::records::numbers;
use bafirolen_sys::*;
use generator::rows::{Added, Lent};

/// What is asked of a body reader beside a policy, in the numbers that cross.
#[derive(Clone, Copy, Debug)]
pub struct Asked {
    pub which: u32,
    pub mode: u32,
    pub has_max: u32,
    pub max: u64,
}

pub fn read(
    message: &[u8],
    start: u64,
    asked: Asked,
    policy: Option<u32>,
    tables: (&mut [u32], &mut [u32]),
) -> BafirolenBody {
    let Asked {
        which,
        mode,
        has_max,
        max,
    } = asked;
    let (m, m_len) = (message.as_ptr(), message.len());
    let (pairs, keys) = (tables.0.as_mut_ptr(), tables.1.as_mut_ptr());
    let (pairs_len, keys_len) = (tables.0.len(), tables.1.len());
    // SAFETY: pointers and lengths are those of slices; the tables are borrowed
    // alone, so they overlap nothing.
    unsafe {
        match policy {
            None => bafirolen_read_header_body(
                m, m_len, start, which, mode, has_max, max, pairs, pairs_len, keys, keys_len,
            ),
            Some(policy) => bafirolen_read_header_body_under_policy(
                m, m_len, start, which, mode, has_max, max, policy, pairs, pairs_len, keys,
                keys_len,
            ),
        }
    }
}

pub fn length(lent: Lent, policy: Option<u32>) -> BafirolenWritten {
    let numbers = numbers(lent.numbers);
    let (id, id_len) = (lent.id.as_ptr(), lent.id.len());
    let (data, data_len) = (lent.suite_data.as_ptr(), lent.suite_data.len());
    let (text, text_len) = (lent.text.as_ptr(), lent.text.len());
    let (pairs, pairs_len) = (lent.pairs.as_ptr(), lent.pairs.len());
    let (keys, keys_len) = (lent.keys.as_ptr(), lent.keys.len());
    // SAFETY: pointers and lengths are those of slices, which are only read.
    unsafe {
        match policy {
            None => bafirolen_header_body_len(
                numbers, id, id_len, data, data_len, text, text_len, pairs, pairs_len, keys,
                keys_len,
            ),
            Some(policy) => bafirolen_header_body_len_under_policy(
                numbers, policy, id, id_len, data, data_len, text, text_len, pairs, pairs_len,
                keys, keys_len,
            ),
        }
    }
}

pub fn write(lent: Lent, policy: Option<u32>, out: &mut [u8]) -> BafirolenWritten {
    let numbers = numbers(lent.numbers);
    let (id, id_len) = (lent.id.as_ptr(), lent.id.len());
    let (data, data_len) = (lent.suite_data.as_ptr(), lent.suite_data.len());
    let (text, text_len) = (lent.text.as_ptr(), lent.text.len());
    let (pairs, pairs_len) = (lent.pairs.as_ptr(), lent.pairs.len());
    let (keys, keys_len) = (lent.keys.as_ptr(), lent.keys.len());
    let (out, out_len) = (out.as_mut_ptr(), out.len());
    // SAFETY: pointers and lengths are those of slices; the output is borrowed
    // alone, so it overlaps nothing.
    unsafe {
        match policy {
            None => bafirolen_write_header_body(
                numbers, id, id_len, data, data_len, text, text_len, pairs, pairs_len, keys,
                keys_len, out, out_len,
            ),
            Some(policy) => bafirolen_write_header_body_under_policy(
                numbers, policy, id, id_len, data, data_len, text, text_len, pairs, pairs_len,
                keys, keys_len, out, out_len,
            ),
        }
    }
}

pub fn drop_keys(draft: &mut [u8], provider_id: &[u8]) -> BafirolenWritten {
    let (draft, draft_len) = (draft.as_mut_ptr(), draft.len());
    let (id, id_len) = (provider_id.as_ptr(), provider_id.len());
    // SAFETY: pointers and lengths are those of slices; the draft is borrowed
    // alone, so it overlaps nothing.
    unsafe { bafirolen_drop_encrypted_data_keys(draft, draft_len, id, id_len) }
}

/// The key by its provider ID, provider info and ciphertext.
pub fn add_key(draft: &mut [u8], key: [&[u8]; 3]) -> BafirolenWritten {
    let (draft, draft_len) = (draft.as_mut_ptr(), draft.len());
    let [(id, id_len), (info, info_len), (bytes, len)] = key.map(|p| (p.as_ptr(), p.len()));
    // SAFETY: as for `drop_keys`.
    unsafe {
        bafirolen_add_encrypted_data_key(draft, draft_len, id, id_len, info, info_len, bytes, len)
    }
}

pub fn reissue(message: &[u8], start: u64, added: Added, out: &mut [u8]) -> BafirolenWritten {
    let (m, m_len) = (message.as_ptr(), message.len());
    let (suite, id, id_len) = (added.suite, added.id.as_ptr(), added.id.len());
    let (data, data_len) = (added.suite_data.as_ptr(), added.suite_data.len());
    let (out, out_len) = (out.as_mut_ptr(), out.len());
    // SAFETY: as for `write`.
    unsafe {
        bafirolen_reissue_header_body(
            m, m_len, start, suite, id, id_len, data, data_len, out, out_len,
        )
    }
}

pub fn reissued_len(message: &[u8], start: u64, added: Added) -> BafirolenWritten {
    let (m, m_len) = (message.as_ptr(), message.len());
    let (suite, id, id_len) = (added.suite, added.id.as_ptr(), added.id.len());
    let (data, data_len) = (added.suite_data.as_ptr(), added.suite_data.len());
    // SAFETY: as for `length`.
    unsafe {
        bafirolen_reissued_header_body_len(m, m_len, start, suite, id, id_len, data, data_len)
    }
}
