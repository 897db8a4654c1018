//! The separate implementation, as the rows ask it.

use super::{mode, refusal};
use generator::rows::{self, Added, Asked, Body, Codec, Lent, Mend, Place};
use generator::rows::{Record, Refused, Section, Written};
use reference::*;

pub struct Reference;

fn place(place: reference::Place) -> Place {
    (place.start, place.len)
}

fn body(body: reference::Body) -> Body {
    Body {
        numbers: [
            body.version,
            body.message_type,
            body.suite,
            body.content_type,
            body.iv_length,
            body.frame_length,
            body.form,
        ],
        id: place(body.id),
        pairs: body.pairs,
        keys: body.keys,
        suite_data: place(body.suite_data),
        tail: body.tail,
    }
}

fn request(asked: Asked, policy: u32) -> Request {
    Request {
        which: match asked.version {
            0 => Which::Either,
            1 => Which::V1,
            _ => Which::V2,
        },
        mode: mode(asked.strict),
        max: asked.max,
        policy: Policy::from(policy),
    }
}

fn draft(lent: Lent) -> Draft {
    Draft {
        numbers: Numbers::from(lent.numbers),
        id: lent.id,
        suite_data: lent.suite_data,
        text: lent.text,
        pairs: lent.pairs,
        keys: lent.keys,
    }
}

impl Codec for Reference {
    fn read_section(&self, message: &[u8], start: u64, strict: bool, table: &mut [u32]) -> Section {
        read_aad_section(message, start, mode(strict), table)
            .map(|read| (read.pairs, read.tail))
            .map_err(refusal)
    }

    fn read_keys(
        &self,
        message: &[u8],
        start: u64,
        max: Option<u64>,
        table: &mut [u32],
    ) -> Section {
        read_encrypted_data_keys_section(message, start, max, table)
            .map(|read| (read.keys, read.tail))
            .map_err(refusal)
    }

    fn read_body(
        &self,
        message: &[u8],
        asked: Asked,
        pairs: &mut [u32],
        keys: &mut [u32],
    ) -> Result<Body, Refused> {
        let Request { which, mode, .. } = request(asked, 0);
        read_header_body(message, asked.start, which, mode, asked.max, pairs, keys)
            .map(body)
            .map_err(refusal)
    }

    fn read_body_under(
        &self,
        policy: u32,
        message: &[u8],
        asked: Asked,
        pairs: &mut [u32],
        keys: &mut [u32],
    ) -> Result<Body, Refused> {
        let request = request(asked, policy);
        read_header_body_under_policy(message, asked.start, request, pairs, keys)
            .map(body)
            .map_err(refusal)
    }

    fn read_record(&self, message: &[u8], start: u64, suite: u32) -> Record {
        read_header_auth_tag(message, start, suite)
            .map(|record| (record.iv, record.tag, record.tail))
            .map_err(refusal)
    }

    fn read_frames(&self, message: &[u8], start: u64, length: u32, table: &mut [u32]) -> Section {
        read_frames(message, start, length, table)
            .map(|read| (read.frames, read.tail))
            .map_err(refusal)
    }

    fn find(&self, message: &[u8], start: u64, key: &[u8]) -> Result<Place, Refused> {
        find(message, start, key).map(place).map_err(refusal)
    }

    fn find_part<'a>(&self, message: &'a [u8], start: u64, key: &[u8]) -> &'a [u8] {
        find_part(message, start, key)
    }

    fn host_answer(&self, message: &[u8], start: u64) -> (u32, u64) {
        host_answer(message, start)
    }

    fn write_section(&self, text: &[u8], table: &[u32], out: &mut [u8]) -> Written {
        write_aad_section(text, table, out).map_err(refusal)
    }

    fn write_keys(&self, text: &[u8], table: &[u32], out: &mut [u8]) -> Written {
        write_encrypted_data_keys_section(text, table, out).map_err(refusal)
    }

    fn body_len(&self, lent: Lent) -> Written {
        header_body_len(
            &Numbers::from(lent.numbers),
            lent.id,
            lent.suite_data,
            lent.text,
            lent.pairs,
            lent.keys,
        )
        .map_err(refusal)
    }

    fn write_body(&self, lent: Lent, out: &mut [u8]) -> Written {
        write_header_body(
            &Numbers::from(lent.numbers),
            lent.id,
            lent.suite_data,
            lent.text,
            lent.pairs,
            lent.keys,
            out,
        )
        .map_err(refusal)
    }

    fn body_len_under(&self, policy: u32, lent: Lent) -> Written {
        header_body_len_under_policy(policy.into(), &draft(lent)).map_err(refusal)
    }

    fn write_body_under(&self, policy: u32, lent: Lent, out: &mut [u8]) -> Written {
        write_header_body_under_policy(policy.into(), &draft(lent), out).map_err(refusal)
    }

    fn frames_len(&self, length: u32, text: &[u8], table: &[u32]) -> Written {
        frames_len(length, text, table).map_err(refusal)
    }

    fn write_frames(&self, length: u32, text: &[u8], table: &[u32], out: &mut [u8]) -> Written {
        write_frames(length, text, table, out).map_err(refusal)
    }

    fn write_record(&self, suite: u32, iv: &[u8], tag: &[u8], out: &mut [u8]) -> Written {
        write_header_auth_tag(suite, iv, tag, out).map_err(refusal)
    }

    fn write_only_authenticated(
        &self,
        message: &[u8],
        start: u64,
        text: &[u8],
        required: &[u32],
        out: &mut [u8],
    ) -> Written {
        write_only_authenticated(message, start, text, required, out).map_err(refusal)
    }
}

impl Mend for Reference {
    fn drop_keys(&self, draft: &mut [u8], provider_id: &[u8]) -> Written {
        drop_encrypted_data_keys(draft, provider_id).map_err(refusal)
    }

    fn add_key(&self, draft: &mut [u8], [id, info, ciphertext]: [&[u8]; 3]) -> Written {
        add_encrypted_data_key(draft, id, info, ciphertext).map_err(refusal)
    }
}

/// What is added to a draft that is reissued.
pub fn reissue(added: Added) -> Reissue {
    Reissue {
        suite: added.suite,
        id: added.id,
        suite_data: added.suite_data,
    }
}

impl rows::Reissue for Reference {
    fn reissue(&self, message: &[u8], start: u64, added: Added, out: &mut [u8]) -> Written {
        reissue_header_body(message, start, &reissue(added), out).map_err(refusal)
    }

    fn reissued_len(&self, message: &[u8], start: u64, added: Added) -> Written {
        reissued_header_body_len(message, start, &reissue(added)).map_err(refusal)
    }
}
