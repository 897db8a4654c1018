//! The loop of `fetch`: what it asks of a source and in which order, and how it
//! ends. `fetched.rs` has what it fetches.

mod common;

use bafirolen::*;
use common::{Source, H};
use std::convert::Infallible;

/// Where the fields of H end, each of which is wanted in turn: the context
/// section at once, of a key six, and behind the keys content type, reserved
/// bytes, IV length and frame length.
const ENDS: [usize; 17] = [
    1, 2, 4, 20, 22, 34, 36, 38, 40, 42, 43, 45, 48, 49, 53, 54, 58,
];

/// H, and bytes that are none of it.
fn message() -> Vec<u8> {
    [&H[..], &[0xEE; 12]].concat()
}

fn ask(message: &[u8]) -> Result<(), Refusal> {
    let (mut pairs, mut keys) = ([0; 4], [0; 6]);
    let body = read_header_body(message, 0, Request::new(), &mut pairs, &mut keys)?;
    assert_eq!(body.tail, 58);
    Ok(())
}

/// A buffer of so many bytes that begins with the first of the message.
fn begun(message: &[u8], held: usize, length: usize) -> Vec<u8> {
    let mut buffer = vec![0x77; length];
    buffer[..held].copy_from_slice(&message[..held]);
    buffer
}

type Ended = (usize, u64, Result<(), Refusal>);

fn ended(fetched: Result<Fetched, Infallible>) -> Ended {
    let Fetched {
        held,
        rounds,
        answer,
        ..
    } = fetched.unwrap();
    (held, rounds, answer)
}

fn shortage(position: usize) -> Result<(), Refusal> {
    let position = position as u64;
    Err(Refusal::Shortage { position })
}

/// The first field's end that lies behind so many bytes.
fn next_end(held: usize) -> usize {
    ENDS.into_iter().find(|end| *end > held).expect("a field")
}

fn rounds_from(held: usize) -> u64 {
    ENDS.into_iter().filter(|end| *end > held).count() as u64
}

#[test]
fn what_is_asked_in_which_order() {
    let (message, mut buffer) = (message(), vec![0x77; 100]);
    let (mut asked, mut lent) = (Vec::new(), Vec::new());
    let mut source = Source::new(&message, 0, &[100]);
    let fetched = fetch(
        &mut buffer,
        0,
        |held| {
            assert_eq!(*held, message[..held.len()]);
            asked.push(held.len());
            ask(held)
        },
        |room| {
            assert!(room.iter().all(|byte| *byte == 0x77), "not fetched yet");
            lent.push(room.len());
            source.more(room)
        },
    );
    assert_eq!(ended(fetched), (58, 17, Ok(())));
    assert_eq!(asked, [&[0], &ENDS[..]].concat());
    let missing = asked.windows(2).map(|two| two[1] - two[0]);
    assert!(missing.eq(lent));
    assert_eq!((source.given, source.asked), (58, 58));
    assert_eq!(buffer[..58], *H);
    assert!(buffer[58..].iter().all(|byte| *byte == 0x77));
}

/// However short what comes at once is, a round is one answer.
#[test]
fn in_pieces() {
    let message = message();
    for pieces in [&[1][..], &[2], &[3, 1, 7, 2], &[16, 1], &[usize::MAX]] {
        let mut source = Source::new(&message, 0, pieces);
        let (mut buffer, mut asks) = ([0; 58], 0);
        let fetched = fetch(
            &mut buffer,
            0,
            |held| {
                asks += 1;
                ask(held)
            },
            |room| source.more(room),
        );
        assert_eq!(ended(fetched), (58, 17, Ok(())), "{pieces:?}");
        assert_eq!((source.given, source.asked, asks), (58, 58, 18));
        assert!(pieces != [1] || source.calls == 58);
        assert_eq!(buffer, *H);
    }
}

/// What is there at first is not fetched again, and more than is wanted may be.
#[test]
fn from_what_is_held() {
    let message = message();
    for held in 0..=message.len() {
        let mut source = Source::new(&message, held, &[5]);
        let mut buffer = begun(&message, held, 100);
        let fetched = fetch(&mut buffer, held, ask, |room| source.more(room));
        let wanted = (held.max(58), rounds_from(held), Ok(()));
        assert_eq!(ended(fetched), wanted, "{held}");
        assert_eq!(source.asked, wanted.0);
    }
}

/// Beyond the buffer there is nothing to hold.
#[test]
fn held_above_the_buffer() {
    let message = message();
    let never = |_: &mut [u8]| -> Result<usize, Infallible> { panic!("nothing is wanted") };
    for held in [71, 1_000, usize::MAX] {
        let mut buffer = begun(&message, 70, 70);
        let fetched = fetch(&mut buffer, held, ask, never);
        assert_eq!(ended(fetched), (70, 0, Ok(())));
        let mut buffer = begun(&message, 30, 30);
        let fetched = fetch(&mut buffer, held, ask, never);
        assert_eq!(ended(fetched), (30, 0, shortage(34)));
        let fetched = fetch(&mut [], held, ask, never);
        assert_eq!(ended(fetched), (0, 0, shortage(1)));
    }
}

/// The shortage stays, and so does what came; and once more comes, the fetch
/// goes on from there.
#[test]
fn a_source_that_ends_early() {
    for length in 0..58 {
        for pieces in [&[100][..], &[1], &[3, 1]] {
            let mut source = Source::new(&H[..length], 0, pieces);
            let mut buffer = [0; 58];
            let fetched = fetch(&mut buffer, 0, ask, |room| source.more(room));
            let end = next_end(length);
            // The last of them brought too little, or nothing.
            let rounds = 1 + 17 - rounds_from(length);
            assert_eq!(ended(fetched), (length, rounds, shortage(end)));
            assert_eq!(source.asked, end);

            let mut source = Source::new(H, length, pieces);
            let fetched = fetch(&mut buffer, length, ask, |room| source.more(room));
            assert_eq!(ended(fetched), (58, rounds_from(length), Ok(())));
            assert_eq!(buffer, *H);
        }
    }
}

/// What the buffer has no room for is not fetched in part either; a longer one
/// goes on.
#[test]
fn a_buffer_that_is_too_short() {
    let message = message();
    for length in 0..58 {
        let mut source = Source::new(&message, 0, &[100]);
        let mut buffer = vec![0; length];
        let fetched = fetch(&mut buffer, 0, ask, |room| source.more(room));
        let end = next_end(length);
        let held = ENDS.into_iter().rfind(|end| *end <= length).unwrap_or(0);
        let rounds = 17 - rounds_from(length);
        assert_eq!(ended(fetched), (held, rounds, shortage(end)));
        assert!(end > buffer.len());
        assert_eq!(source.asked, held);

        buffer.resize(58, 0);
        let fetched = fetch(&mut buffer, held, ask, |room| source.more(room));
        assert_eq!(ended(fetched), (58, rounds_from(length), Ok(())));
        assert_eq!(buffer, H);
    }
}

/// At each call; what came before it is there.
#[test]
fn an_error_of_the_source() {
    for calls in 0..58 {
        let mut source = Source::new(H, 0, &[1]);
        let mut buffer = [0; 58];
        let fetched = fetch(&mut buffer, 0, ask, |room| match source.calls {
            made if made == calls => Err("broken"),
            _ => source.more(room).map_err(|never| match never {}),
        });
        assert_eq!(fetched, Err("broken"));
        assert_eq!(source.calls, calls);
        assert_eq!(buffer[..calls], H[..calls]);
    }
}

/// A source that says it stored more than it was lent stored all of that.
#[test]
fn a_source_that_claims_more() {
    let message = message();
    for claim in [1, 2, 100, usize::MAX] {
        let mut source = Source::new(&message, 0, &[100]);
        let mut buffer = [0; 60];
        let more = |room: &mut [u8]| {
            let stored = source.more(room)?;
            assert_eq!(stored, room.len());
            Ok::<_, Infallible>(stored.saturating_add(claim))
        };
        let fetched = fetch(&mut buffer, 0, ask, more);
        assert_eq!(ended(fetched), (58, 17, Ok(())));
        assert_eq!(buffer[..58], *H);
    }
}

/// A shortage that no reader gives ends the fetch: nothing is lent for it.
#[test]
fn answers_that_make_no_sense() {
    for (held, position) in [(0, 0), (3, 0), (3, 2), (3, 3), (8, 8)] {
        let mut buffer = [0; 8];
        let never = |_: &mut [u8]| -> Result<usize, Infallible> { panic!("nothing is wanted") };
        let fetched = fetch(&mut buffer, held, |_| shortage(position), never);
        assert_eq!(ended(fetched), (held, 0, shortage(position)));
    }
    // One position, again and again; one that no buffer reaches; and one of a
    // refusal that has none.
    let mut source = Source::new(H, 3, &[1]);
    let fetched = fetch(&mut [0; 8], 3, |_| shortage(5), |room| source.more(room));
    assert_eq!(ended(fetched), (5, 1, shortage(5)));
    let far = Refusal::Shortage { position: u64::MAX };
    for refusal in [far, Refusal::from_number(40, 5)] {
        let fetched = fetch(&mut [0; 8], 3, |_| Err(refusal), |room| source.more(room));
        assert_eq!(ended(fetched), (3, 0, Err(refusal)));
    }
}

/// By hand; and no argument overflows.
#[test]
fn the_most_rounds() {
    let rows = [(0, 11), (1, 17), (2, 23), (10, 71), (65_535, 393_221)];
    for (keys, rounds) in rows {
        assert_eq!(most_rounds(keys), rounds);
    }
    let rows = [(0, 6), (1, 6), (2, 10), (3, 14), (65_535, 262_142)];
    for (frames, rounds) in rows {
        assert_eq!(most_frame_rounds(frames), rounds);
    }
    let last = (u64::MAX - 11) / 6;
    assert_eq!(most_rounds(last), 11 + 6 * last);
    for many in [last + 1, u64::MAX - 1, u64::MAX] {
        assert_eq!(most_rounds(many), u64::MAX);
    }
    let last = (u64::MAX - 6) / 4;
    assert_eq!(most_frame_rounds(1 + last), 6 + 4 * last);
    for many in [2 + last, u64::MAX - 1, u64::MAX] {
        assert_eq!(most_frame_rounds(many), u64::MAX);
    }
}
