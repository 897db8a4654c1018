//! Mends the draft at the front of a file, step by step, and only then files it
//! anew. `drop ID` takes out all encrypted data keys with that provider ID, such
//! as those of a departed station. `add ID INFO CIPHERTEXT` puts one behind the
//! others, with the provider info and the ciphertext that stand in two files.
//! What is refused at any step is not filed.
//!
//!     cargo run --release --example mend_draft -- FILE NEW add p2 INFO CIPHERTEXT drop p1

mod common;

use bafirolen::{add_encrypted_data_key_to_vec, drop_encrypted_data_keys, Key};
use common::{ended, message_of, print, usage};
use std::error::Error;
use std::ffi::{OsStr, OsString};
use std::os::unix::ffi::OsStrExt;
use std::path::Path;
use std::process::ExitCode;
use std::{env, fs};

/// What is done to a draft.
enum Step<'a> {
    Drop {
        id: &'a OsStr,
    },
    Add {
        id: &'a OsStr,
        info: &'a Path,
        ciphertext: &'a Path,
    },
}

/// The arguments as steps, if all of them are, and there is one.
fn steps(mut arguments: &[OsString]) -> Option<Vec<Step<'_>>> {
    let mut steps = Vec::new();
    while !arguments.is_empty() {
        let (step, rest) = match arguments {
            [name, id, rest @ ..] if name == "drop" => (Step::Drop { id }, rest),
            [name, id, info, ciphertext, rest @ ..] if name == "add" => {
                let (info, ciphertext) = (Path::new(info), Path::new(ciphertext));
                let step = Step::Add {
                    id,
                    info,
                    ciphertext,
                };
                (step, rest)
            }
            _ => return None,
        };
        steps.push(step);
        arguments = rest;
    }
    Some(steps).filter(|steps| !steps.is_empty())
}

/// The vector is just the draft afterwards.
fn mend(draft: &mut Vec<u8>, step: &Step) -> Result<(), Box<dyn Error>> {
    match step {
        Step::Drop { id } => {
            let tail = drop_encrypted_data_keys(draft, id.as_bytes())?;
            draft.truncate(tail);
        }
        Step::Add {
            id,
            info,
            ciphertext,
        } => {
            let (info, ciphertext) = (message_of(info)?, message_of(ciphertext)?);
            let key = Key {
                provider_id: id.as_bytes(),
                provider_info: &info,
                ciphertext: &ciphertext,
            };
            add_encrypted_data_key_to_vec(draft, key)?;
        }
    }
    Ok(())
}

fn run(path: &Path, new: &Path, steps: &[Step]) -> Result<(), Box<dyn Error>> {
    let mut draft = message_of(path)?;
    for step in steps {
        mend(&mut draft, step)?;
    }
    fs::write(new, &draft).map_err(|error| format!("{}: {error}", new.display()))?;
    Ok(print(
        format!("mended to {} bytes\n", draft.len()).as_bytes(),
    )?)
}

fn main() -> ExitCode {
    let arguments: Vec<OsString> = env::args_os().skip(1).collect();
    let Some(steps) = arguments.get(2..).and_then(steps) else {
        return usage("mend_draft FILE NEW {drop ID | add ID INFO CIPHERTEXT}..");
    };
    let (path, new) = (Path::new(&arguments[0]), Path::new(&arguments[1]));
    ended("mend_draft", run(path, new, &steps))
}
