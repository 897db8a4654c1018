//! Bodies under a policy where rows ask for them without one.

use super::{body_lengths, forms, header_writes, headers, no_key, section_ends, sizes};
use super::{Asked, Body, Codec, Lent, Place, Record, Refused, Section, Written};
use crate::image::OLD_MARKS;
use crate::policies::UNKNOWN;

/// What rows are held against, which reads, measures and writes every body
/// under the policy of this number. All else is without a policy.
pub struct Under<'a, C>(pub &'a C, pub u32);

impl<C: Codec> Codec for Under<'_, C> {
    fn read_body(
        &self,
        message: &[u8],
        asked: Asked,
        pairs: &mut [u32],
        keys: &mut [u32],
    ) -> Result<Body, Refused> {
        self.0.read_body_under(self.1, message, asked, pairs, keys)
    }

    fn body_len(&self, lent: Lent) -> Written {
        self.0.body_len_under(self.1, lent)
    }

    fn write_body(&self, lent: Lent, out: &mut [u8]) -> Written {
        self.0.write_body_under(self.1, lent, out)
    }

    fn read_body_under(
        &self,
        policy: u32,
        message: &[u8],
        asked: Asked,
        pairs: &mut [u32],
        keys: &mut [u32],
    ) -> Result<Body, Refused> {
        self.0.read_body_under(policy, message, asked, pairs, keys)
    }

    fn body_len_under(&self, policy: u32, lent: Lent) -> Written {
        self.0.body_len_under(policy, lent)
    }

    fn write_body_under(&self, policy: u32, lent: Lent, out: &mut [u8]) -> Written {
        self.0.write_body_under(policy, lent, out)
    }

    fn read_section(&self, message: &[u8], start: u64, strict: bool, table: &mut [u32]) -> Section {
        self.0.read_section(message, start, strict, table)
    }

    fn read_keys(
        &self,
        message: &[u8],
        start: u64,
        max: Option<u64>,
        table: &mut [u32],
    ) -> Section {
        self.0.read_keys(message, start, max, table)
    }

    fn read_record(&self, message: &[u8], start: u64, suite: u32) -> Record {
        self.0.read_record(message, start, suite)
    }

    fn read_frames(&self, message: &[u8], start: u64, length: u32, table: &mut [u32]) -> Section {
        self.0.read_frames(message, start, length, table)
    }

    fn find(&self, message: &[u8], start: u64, key: &[u8]) -> Result<Place, Refused> {
        self.0.find(message, start, key)
    }

    fn find_part<'a>(&self, message: &'a [u8], start: u64, key: &[u8]) -> &'a [u8] {
        self.0.find_part(message, start, key)
    }

    fn host_answer(&self, message: &[u8], start: u64) -> (u32, u64) {
        self.0.host_answer(message, start)
    }

    fn write_section(&self, text: &[u8], table: &[u32], out: &mut [u8]) -> Written {
        self.0.write_section(text, table, out)
    }

    fn write_keys(&self, text: &[u8], table: &[u32], out: &mut [u8]) -> Written {
        self.0.write_keys(text, table, out)
    }

    fn frames_len(&self, length: u32, text: &[u8], table: &[u32]) -> Written {
        self.0.frames_len(length, text, table)
    }

    fn write_frames(&self, length: u32, text: &[u8], table: &[u32], out: &mut [u8]) -> Written {
        self.0.write_frames(length, text, table, out)
    }

    fn write_record(&self, suite: u32, iv: &[u8], tag: &[u8], out: &mut [u8]) -> Written {
        self.0.write_record(suite, iv, tag, out)
    }

    fn write_only_authenticated(
        &self,
        message: &[u8],
        start: u64,
        text: &[u8],
        required: &[u32],
        out: &mut [u8],
    ) -> Written {
        let codec = self.0;
        codec.write_only_authenticated(message, start, text, required, out)
    }
}

/// Every row of headers that are read, under each policy that reads both
/// versions, and without one.
pub fn rows_read(codec: &impl Codec) -> u64 {
    let under = [0, 1, 2].map(|policy| Under(codec, policy));
    let rows = under.iter().map(|codec| {
        headers::header_h_is_read_whole(codec)
            + headers::header_h_cut_and_moved(codec)
            + headers::an_empty_context_has_two_forms(codec)
            + headers::each_field_is_tested(codec)
            + headers::tables_are_tested_last(codec)
            + no_key::every_cut(codec)
            + no_key::contexts(codec)
            + no_key::fronts(codec)
            + section_ends::of_bodies(codec)
            + section_ends::of_headers(codec)
            + sizes::messages_of_four_gibibytes(codec)
    });
    rows.sum()
}

/// How many rows these are.
pub const ROWS_READ: u64 = {
    let headers = 5 + 64 + 8 + 42 + 5;
    let no_key = (47 + 77) * 21 + 12 * (6 + 4) * 21 + (7 * 21 + 4);
    let ends = 302 * 2 * 2 * 5 + 16 * 5;
    let sizes = 5 * 9 + 5 + 6;
    3 * (headers + no_key + ends + sizes)
};

/// Every row of bodies that are written or measured, by a call that may name a
/// policy and names none; those of one version by policies that write it.
pub fn rows_written(codec: &impl Codec) -> u64 {
    let none = &Under(codec, 0);
    let both = body_lengths::lengths(none)
        + body_lengths::the_longest(none)
        + forms::read_then_written(none)
        + forms::every_mark(none)
        + forms::a_pair_in_the_old_form(none)
        + forms::no_pair_in_the_old_form(none)
        + no_key::bodies_written(none);
    let first = [0, 1].map(|policy| {
        let codec = &Under(codec, policy);
        header_writes::header_h_is_written_with_each_fault(codec) + body_lengths::refusals(codec)
    });
    let second = [0, 2, 3].into_iter().chain(UNKNOWN).map(|policy| {
        let codec = &Under(codec, policy);
        header_writes::header_v2_is_read_and_written(codec)
    });
    both + first.into_iter().chain(second).sum::<u64>()
}

/// How many rows these are.
pub const ROWS_WRITTEN: u64 = {
    let marks = OLD_MARKS.len() as u64;
    let lengths = 18 * 4 + 2 * (3 * 4 + 2);
    let again = 2 * (6 * 4 + (4 * 4 + 2 * 2) * 4);
    let marked = 2 * (4 + 2 * (4 + (4 + 2) * marks) + 3 * 2 * marks + 1);
    let old = 2 * 2 * (2 * (13 + 12) + 1) + 2 * 2 * (1 + 12);
    let no_key = 2 * 4 * (1 + 15 + 2 * 5) * 3;
    let first = 2 * ((2 * 14 + 3) + 26 * 2 * 3);
    let second = (3 + UNKNOWN.len() as u64) * 7;
    lengths + again + marked + old + no_key + first + second
};
