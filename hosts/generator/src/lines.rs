//! The listing of fields, line by line, from the fields alone.

use crate::fields::Fields;
use std::fmt::Write;

/// A tab and lowercase digits for each part.
fn line<'a>(text: &mut String, word: &str, parts: impl IntoIterator<Item = &'a [u8]>) {
    text.push_str(word);
    for part in parts {
        text.push('\t');
        for byte in part {
            write!(text, "{byte:02x}").expect("a string takes all");
        }
    }
    text.push('\n');
}

/// What is listed where the image of these fields stands at the front.
pub fn listing(fields: &Fields) -> String {
    listing_to(fields, fields.image().bytes.len())
}

/// What is listed of these fields where their header ends at `tail`.
pub fn listing_to(fields: &Fields, tail: usize) -> String {
    let mut text = format!(
        "header\t{}\t{:02x}\t{:04x}\t{:02x}\t{}\t{}\n",
        fields.version,
        fields.message_type,
        fields.suite,
        fields.content_type,
        fields.frame_length,
        tail
    );
    line(&mut text, "id", [&fields.id[..]]);
    for (key, value) in &fields.pairs {
        line(&mut text, "pair", [&key[..], value]);
    }
    for key in &fields.keys {
        line(&mut text, "key", key.iter().map(|part| &part[..]));
    }
    if fields.version == 2 {
        line(&mut text, "data", [&fields.suite_data[..]]);
    }
    text
}
