//! A message of which every byte is known, others like it, drafts and what they
//! are reissued as, and a source that gives a message in pieces.

// Not every test uses all of it.
#![allow(dead_code)]

use bafirolen::{Key, Reissue};
use std::convert::Infallible;

/// Header H of document 01.
pub const H: &[u8; 58] = b"\x01\x80\x01\x78\
    \x00\x01\x02\x03\x04\x05\x06\x07\x08\x09\x0A\x0B\x0C\x0D\x0E\x0F\
    \x00\x0C\x00\x01\x00\x04lang\x00\x02cy\
    \x00\x01\x00\x02p1\x00\x01a\x00\x03\xAA\xBB\xCC\
    \x02\x00\x00\x00\x00\x0C\x00\x00\x10\x00";

/// A header of a version with H's front and back, and these two sections.
pub fn header_of(version: u8, context: &[u8], keys: &[u8]) -> Vec<u8> {
    match version {
        1 => [&H[..20], context, keys, &H[48..]].concat(),
        _ => {
            let front = [&[2, 0x05, 0x78], &H[..32]].concat();
            let back = [&H[48..49], &H[54..], &H[..32]].concat();
            [&front, context, keys, &back].concat()
        }
    }
}

/// A section of these encrypted data keys.
pub fn key_section(keys: &[Key]) -> Vec<u8> {
    let mut section = (keys.len() as u16).to_be_bytes().to_vec();
    for key in keys {
        for part in [key.provider_id, key.provider_info, key.ciphertext] {
            section.extend((part.len() as u16).to_be_bytes());
            section.extend(part);
        }
    }
    section
}

/// What a draft of version 1 hands on to the body that it is reissued as.
#[derive(Clone, Copy)]
pub struct HandedOn<'a> {
    pub context: &'a [u8],
    pub keys: &'a [u8],
    pub content_type: u8,
    pub frame_length: u32,
}

impl HandedOn<'_> {
    /// That draft, with H's front.
    pub fn draft(&self) -> Vec<u8> {
        let back = [&[self.content_type, 0, 0, 0, 0, 12][..], &self.length()].concat();
        [&H[..20], self.context, self.keys, &back].concat()
    }

    /// That body. An empty context in its old form is written as today.
    pub fn reissued(&self, reissue: &Reissue) -> Vec<u8> {
        let suite = (reissue.suite as u16).to_be_bytes();
        let front = [&[2], &suite[..], reissue.message_id].concat();
        let old = self.context == [0, 2, 0, 0];
        let context = if old { &[0, 0] } else { self.context };
        let back = [&[self.content_type][..], &self.length(), reissue.suite_data].concat();
        [&front, context, self.keys, &back].concat()
    }

    fn length(&self) -> [u8; 4] {
        self.frame_length.to_be_bytes()
    }
}

/// Gives a message from a place on, in pieces of at most these lengths by turns.
pub struct Source<'m> {
    message: &'m [u8],
    pieces: &'m [usize],
    /// How many bytes were given.
    pub given: usize,
    /// The end of the farthest byte that was asked for.
    pub asked: usize,
    /// How often it was asked.
    pub calls: usize,
}

impl<'m> Source<'m> {
    pub fn new(message: &'m [u8], given: usize, pieces: &'m [usize]) -> Source<'m> {
        let (asked, calls) = (given, 0);
        Source {
            message,
            pieces,
            given,
            asked,
            calls,
        }
    }

    pub fn more(&mut self, room: &mut [u8]) -> Result<usize, Infallible> {
        assert!(!room.is_empty(), "asked for nothing");
        self.asked = self.asked.max(self.given + room.len());
        let rest = &self.message[self.given..];
        let piece = self.pieces[self.calls % self.pieces.len()];
        let length = room.len().min(piece).min(rest.len());
        room[..length].copy_from_slice(&rest[..length]);
        self.given += length;
        self.calls += 1;
        Ok(length)
    }
}
