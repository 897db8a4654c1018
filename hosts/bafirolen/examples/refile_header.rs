//! Reads the header at the front of a file, writes it again from what was read,
//! compares the bytes, and only then files them anew. Reads and writes it under
//! a commitment policy, if one is named: FORBID_ENCRYPT_ALLOW_DECRYPT,
//! REQUIRE_ENCRYPT_ALLOW_DECRYPT or REQUIRE_ENCRYPT_REQUIRE_DECRYPT.
//!
//!     cargo run --release --example refile_header -- FILE NEW [POLICY]

mod common;

use bafirolen::{
    read_header_body, write_header_body, Policy, Request, LARGEST_KEY_TABLE, LARGEST_PAIR_TABLE,
};
use common::{ended, message_of, print, usage};
use std::error::Error;
use std::ffi::{OsStr, OsString};
use std::path::Path;
use std::process::ExitCode;
use std::{env, fs};

/// The policy of that name.
fn named(name: &OsStr) -> Option<Policy> {
    match name.to_str()? {
        "FORBID_ENCRYPT_ALLOW_DECRYPT" => Some(Policy::ForbidEncryptAllowDecrypt),
        "REQUIRE_ENCRYPT_ALLOW_DECRYPT" => Some(Policy::RequireEncryptAllowDecrypt),
        "REQUIRE_ENCRYPT_REQUIRE_DECRYPT" => Some(Policy::RequireEncryptRequireDecrypt),
        _ => None,
    }
}

fn run(path: &Path, new: &Path, policy: Option<Policy>) -> Result<(), Box<dyn Error>> {
    let message = message_of(path)?;
    let (mut pairs, mut keys) = (vec![0; LARGEST_PAIR_TABLE], vec![0; LARGEST_KEY_TABLE]);
    let mut request = Request::default();
    request.policy = policy;
    let body = read_header_body(&message, 0, request, &mut pairs, &mut keys)?;

    // As long as what was read, which is all that is written.
    let read = &message[..body.tail as usize];
    let mut out = vec![0; read.len()];
    let mut draft = body.draft();
    draft.policy = policy;
    let length = write_header_body(&draft, &mut out)?;
    if out[..length] != *read {
        return Err("what was written is not what was read".into());
    }
    fs::write(new, &out).map_err(|error| format!("{}: {error}", new.display()))?;
    Ok(print(format!("refiled {length} bytes\n").as_bytes())?)
}

fn main() -> ExitCode {
    let arguments: Vec<OsString> = env::args_os().skip(1).collect();
    let (path, new, policy) = match &arguments[..] {
        [path, new] => (path, new, None),
        [path, new, name] if named(name).is_some() => (path, new, named(name)),
        _ => return usage("refile_header FILE NEW [POLICY]"),
    };
    let outcome = run(Path::new(path), Path::new(new), policy);
    ended("refile_header", outcome)
}
