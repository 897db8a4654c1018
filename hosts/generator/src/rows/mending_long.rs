//! Drafts in buffers of the greatest length, and of one more.

use super::mending::draft;
use super::{Mend, Refused};
use crate::large::zeros;

pub(super) const GREATEST: usize = u32::MAX as usize;

/// How many answers these rows give.
pub const ANSWERS: u64 = 2 * (2 + 3) + 11;

pub fn of_four_gibibytes(mend: &impl Mend) -> u64 {
    let mut buffer = zeros(GREATEST + 1);
    short(mend, &mut buffer) + long(mend, &mut buffer[..GREATEST])
}

/// A short draft in a long buffer. One byte above the greatest length nothing is
/// read, whatever is asked.
fn short(mend: &impl Mend, buffer: &mut [u8]) -> u64 {
    const TWO: &str = "0002 000161 0000 0000  000162 0000 0001BB";
    for version in [1, 2] {
        let old = draft(version, "00 02 00 00", TWO);
        let behind = [0xEE; 12];
        let front = [&old[..], &behind].concat();
        buffer[..front.len()].copy_from_slice(&front);
        let refused: Result<u64, Refused> = Err((1, 0));
        assert_eq!(mend.drop_keys(buffer, b"a"), refused);
        assert_eq!(mend.add_key(buffer, [&[0xFF], b"", b""]), refused);
        assert!(buffer.starts_with(&front));

        let whole = &mut buffer[..GREATEST];
        let tail = old.len() as u64;
        assert_eq!(mend.add_key(whole, [b"c", b"", b"CC"]), Ok(tail + 9));
        assert_eq!(mend.drop_keys(whole, b"a"), Ok(tail + 2));
        assert_eq!(mend.drop_keys(whole, b"c"), Ok(tail - 7));
        let mut wanted = draft(version, "00 02 00 00", "0001 000162 0000 0001BB");
        wanted.resize(old.len() + 9, 0);
        wanted.extend(&behind[9..]);
        wanted.extend([0; 100]);
        assert!(buffer.starts_with(&wanted));
        assert!(buffer[GREATEST - 100..].iter().all(|&byte| byte == 0));
        // For what comes next.
        buffer[..wanted.len()].fill(0);
    }
    2 * (2 + 3)
}

/// Where a long draft ends: seven bytes before the end of its buffer.
const TAIL: usize = GREATEST - 7;

/// 65,534 keys whose IDs and infos are empty, in a draft up to `tail`, which is
/// near the greatest length. Of their ciphertexts, which are all 00, 65,530 are
/// as long as they can be.
pub(super) fn fill(buffer: &mut [u8], tail: usize) {
    let empty = draft(1, "00 00", "FFFE");
    let (front, back) = empty.split_at(24);
    buffer[..24].copy_from_slice(front);
    let mut rest = tail - empty.len() - 6 * 65_534;
    let mut at = 24;
    for _ in 0..65_534 {
        let length = rest.min(65_535);
        buffer[at + 4..at + 6].copy_from_slice(&(length as u16).to_be_bytes());
        at += 6 + length;
        rest -= length;
    }
    assert_eq!((rest, at + back.len()), (0, tail));
    buffer[at..tail].copy_from_slice(back);
}

/// A draft that is nearly as long as its buffer: sums of 32 bits would pass
/// their end. Nothing but what stands behind the keys is moved here.
fn long(mend: &impl Mend, buffer: &mut [u8]) -> u64 {
    fill(buffer, TAIL);
    let (end, last) = (GREATEST as u64, TAIL as u64);
    let nothing = [&b""[..]; 3];
    let seven = [&b"a"[..], b"", b""];
    let most = [b"", b"", &[0xBB; 65_535][..]];
    let mut add = |length: usize, key| mend.add_key(&mut buffer[..length], key);
    assert_eq!(add(TAIL - 1, seven), Err((2, last)));
    assert_eq!(add(TAIL, nothing), Err((28, 0)));
    assert_eq!(add(GREATEST - 1, seven), Err((28, 0)));
    assert_eq!(add(GREATEST, [b"a", b"", b"c"]), Err((28, 0)));
    assert_eq!(add(GREATEST, most), Err((28, 0)));
    let mut drops = |length: usize, id: &[u8]| mend.drop_keys(&mut buffer[..length], id);
    assert_eq!(drops(TAIL - 1, b"a"), Err((2, last)));
    assert_eq!(drops(TAIL, b"a"), Ok(last));
    assert_eq!(drops(GREATEST, b""), Err((40, 0)));
    assert!(buffer[TAIL..].iter().all(|&byte| byte == 0));

    assert_eq!(mend.add_key(buffer, seven), Ok(end));
    assert_eq!(buffer[20..24], [0, 0, 0xFF, 0xFF]);
    let key = draft(1, "", "000161 0000 0000");
    assert!(buffer.ends_with(&key[20..]));
    assert_eq!(mend.add_key(buffer, nothing), Err((27, 0)));
    let cut = &mut buffer[..GREATEST - 1];
    assert_eq!(mend.drop_keys(cut, b"a"), Err((2, end)));
    11
}
