//! The rows that are written by hand: each message of theirs that is read is
//! fed in pieces before it is answered.

use super::feeding::Feeder;
use super::operations::*;
use super::seen::Seen;
use crate::both::{crossed, mode, which, Both};
use crate::request;
use generator::rows::{self, Added, Codec, Lent, Place, Refused, Reissue, Section, Written};
use std::cell::RefCell;

/// Answers as [`Both`] does.
pub struct Fetching(RefCell<Feeder>);

impl Fetching {
    pub fn new(seed: u64) -> Fetching {
        Fetching(RefCell::new(Feeder::new(seed)))
    }

    pub fn seen(self) -> Seen {
        self.0.into_inner().seen
    }

    fn feed(&self, operation: &'static str, asked: impl Asked, message: &[u8], start: u64) {
        self.0.borrow_mut().feed(operation, &asked, message, start);
    }
}

impl Codec for Fetching {
    fn read_section(&self, message: &[u8], start: u64, strict: bool, table: &mut [u32]) -> Section {
        let mode = mode(strict);
        self.feed("context", Context { mode, table }, message, start);
        Both.read_section(message, start, strict, table)
    }

    fn read_keys(
        &self,
        message: &[u8],
        start: u64,
        max: Option<u64>,
        table: &mut [u32],
    ) -> Section {
        self.feed("keys", Keys { max, table }, message, start);
        Both.read_keys(message, start, max, table)
    }

    fn read_body(
        &self,
        message: &[u8],
        asked: rows::Asked,
        pairs: &mut [u32],
        keys: &mut [u32],
    ) -> Result<rows::Body, Refused> {
        let request = request(which(asked.version), mode(asked.strict), asked.max);
        let body = Body {
            request,
            pairs,
            keys,
        };
        self.feed("body", body, message, asked.start);
        Both.read_body(message, asked, pairs, keys)
    }

    fn read_body_under(
        &self,
        policy: u32,
        message: &[u8],
        asked: rows::Asked,
        pairs: &mut [u32],
        keys: &mut [u32],
    ) -> Result<rows::Body, Refused> {
        let body = BodyUnderPolicy {
            policy,
            asked: crossed(asked),
            pairs,
            keys,
        };
        self.feed("body under policy", body, message, asked.start);
        Both.read_body_under(policy, message, asked, pairs, keys)
    }

    fn read_record(&self, message: &[u8], start: u64, suite: u32) -> rows::Record {
        self.feed("record", Record { suite }, message, start);
        Both.read_record(message, start, suite)
    }

    fn read_frames(
        &self,
        message: &[u8],
        start: u64,
        frame_length: u32,
        table: &mut [u32],
    ) -> Section {
        let frames = Frames {
            frame_length,
            table,
        };
        self.feed("frames", frames, message, start);
        Both.read_frames(message, start, frame_length, table)
    }

    fn find(&self, message: &[u8], start: u64, key: &[u8]) -> Result<Place, Refused> {
        self.feed("find", Find { key }, message, start);
        Both.find(message, start, key)
    }

    fn find_part<'a>(&self, message: &'a [u8], start: u64, key: &[u8]) -> &'a [u8] {
        Both.find_part(message, start, key)
    }

    fn host_answer(&self, message: &[u8], start: u64) -> (u32, u64) {
        self.feed("host", Host, message, start);
        Both.host_answer(message, start)
    }

    fn write_only_authenticated(
        &self,
        message: &[u8],
        start: u64,
        text: &[u8],
        required: &[u32],
        out: &mut [u8],
    ) -> Written {
        let only = OnlyAuthenticated {
            text,
            required,
            out,
        };
        self.feed("only authenticated", only, message, start);
        Both.write_only_authenticated(message, start, text, required, out)
    }

    fn write_section(&self, text: &[u8], table: &[u32], out: &mut [u8]) -> Written {
        Both.write_section(text, table, out)
    }

    fn write_keys(&self, text: &[u8], table: &[u32], out: &mut [u8]) -> Written {
        Both.write_keys(text, table, out)
    }

    fn body_len(&self, lent: Lent) -> Written {
        Both.body_len(lent)
    }

    fn write_body(&self, lent: Lent, out: &mut [u8]) -> Written {
        Both.write_body(lent, out)
    }

    fn body_len_under(&self, policy: u32, lent: Lent) -> Written {
        Both.body_len_under(policy, lent)
    }

    fn write_body_under(&self, policy: u32, lent: Lent, out: &mut [u8]) -> Written {
        Both.write_body_under(policy, lent, out)
    }

    fn frames_len(&self, length: u32, text: &[u8], table: &[u32]) -> Written {
        Both.frames_len(length, text, table)
    }

    fn write_frames(&self, length: u32, text: &[u8], table: &[u32], out: &mut [u8]) -> Written {
        Both.write_frames(length, text, table, out)
    }

    fn write_record(&self, suite: u32, iv: &[u8], tag: &[u8], out: &mut [u8]) -> Written {
        Both.write_record(suite, iv, tag, out)
    }
}

impl Reissue for Fetching {
    fn reissue(&self, message: &[u8], start: u64, added: Added, out: &mut [u8]) -> Written {
        self.feed("reissue", Reissued { added, out }, message, start);
        Both.reissue(message, start, added, out)
    }

    fn reissued_len(&self, message: &[u8], start: u64, added: Added) -> Written {
        Both.reissued_len(message, start, added)
    }
}
