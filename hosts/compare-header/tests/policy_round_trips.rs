//! What is written under a policy is the image without one, and the tolerant
//! reader of either version gives its fields under each policy that reads the
//! version, whichever it was written under.

use bafirolen_sys::BafirolenBody;
use compare_header::compared;
use compare_header::crossing::Asked;
use compare_header::expected::parts_are;
use compare_header::reads::Tables;
use compare_header::records::numbers;
use compare_header::scale::seeds;
use compare_header::under_policy::{read_header_body, write_header_body};
use generator::fields::{fields, Fields};
use generator::policies::{self, may_read, may_write};
use generator::random::Random;
use generator::rows;
use generator::tables::lend;

/// Neither strict nor with a maximum.
const EITHER: Asked = Asked {
    which: 0,
    mode: 0,
    has_max: 0,
    max: 0,
};

/// The record and the tables give the fields of an image that is a message.
fn gives(seed: u64, fields: &Fields, image: &[u8], (record, tables): &(BafirolenBody, Tables)) {
    assert_eq!((record.number, record.position), (0, 0), "seed {seed}");
    assert_eq!(record.numbers, numbers(fields.numbers()), "seed {seed}");
    assert_eq!(record.tail, image.len() as u64, "seed {seed}");
    let part = |start: u64, len: u64| &image[start as usize..][..len as usize];
    let id = part(record.message_id_start, record.message_id_len);
    let data = part(record.suite_data_start, record.suite_data_len);
    assert_eq!((id, data), (&fields.id[..], &fields.suite_data[..]));
    let counts = (record.pair_count as usize, record.key_count as usize);
    assert_eq!(counts, (fields.pairs.len(), fields.keys.len()));
    let pairs = fields.pairs.iter().flat_map(|pair| [&pair.0[..], &pair.1]);
    parts_are(seed, image, &tables.pairs, pairs);
    let keys = fields.keys.iter().flatten().map(|part| &part[..]);
    parts_are(seed, image, &tables.keys, keys);
}

#[test]
fn written_then_read() {
    let (mut count, mut given) = (0, 0);
    for seed in seeds(30_000) {
        let mut random = Random::new(seed ^ 0x0000_7219);
        let fields = fields(&mut random);
        let lent = lend(&mut random, &fields.pairs, &fields.keys);
        let request = rows::Lent {
            numbers: fields.numbers(),
            id: &fields.id,
            suite_data: &fields.suite_data,
            text: &lent.text,
            pairs: &lent.pairs,
            keys: &lent.keys,
        };
        let image = fields.image().bytes;
        let unknown = policies::policy(&mut random);
        for policy in policies::POLICIES.into_iter().chain([unknown]) {
            let (answer, out) = write_header_body(policy, request, &vec![0; image.len()]);
            let refused = answer.as_ref().err().map(|refusal| refusal.number());
            match may_write(policy, fields.version) {
                true => assert_eq!((refused, &out), (None, &image), "seed {seed}"),
                false => assert_eq!(refused, Some(39), "seed {seed}"),
            }
            let tables = (vec![1; lent.pairs.len()], vec![2; lent.keys.len()]);
            let read = read_header_body(policy, (&image, 0), EITHER, &tables.0, &tables.1);
            match may_read(policy, fields.version) {
                true => gives(seed, &fields, &image, &read),
                false => assert_eq!((read.0.number, read.0.position), (39, 0)),
            }
            given += u64::from(read.0.number == 0);
            count += 2;
        }
    }
    assert!(given > 0 && 2 * given < count);
    compared(count, "bodies written and read under every policy");
}
