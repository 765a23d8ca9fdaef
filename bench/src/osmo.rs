//! osmo-tetra's C, at -O3.

use crate::{put, Inputs, Round, Rounds, NUMBER, VERSION};
use host::both::{PLAIN, SEALED};
use peer::osmo::{self, RoundKeys};
use std::array::from_fn;
use std::hint::black_box;

pub fn rounds(inputs: &Inputs) -> Rounds<'_> {
    let mut laid_out = RoundKeys::default();
    laid_out.set(&inputs.keys[0]);
    let mut keys = RoundKeys::default();
    // It has round keys only, so both forms are the same here.
    let call = |run: fn(&mut RoundKeys, &mut [u8; 8])| {
        let mut keys = RoundKeys::default();
        inputs.calls(move |key, block| {
            keys.set(key);
            run(&mut keys, block);
        })
    };
    let cipher = [
        inputs.schedules(move |key| {
            keys.set(key);
            black_box(&keys);
        }),
        inputs.blocks(move |block| laid_out.encrypt(block)),
        call(RoundKeys::encrypt),
        call(RoundKeys::encrypt),
        call(RoundKeys::decrypt),
        call(RoundKeys::decrypt),
        inputs.flips(
            |key| {
                let mut keys = RoundKeys::default();
                keys.set(key);
                keys
            },
            |keys, mut block| {
                keys.encrypt(&mut block);
                block
            },
        ),
    ];
    let calls = cipher.into_iter().chain(texts(inputs));
    // It has no call for a class, so both rows are its challenges one by one.
    let class = [(); 2].map(|()| {
        inputs.challenges(|challenge| osmo::ta12_ta22(&inputs.keys[0], &start(challenge)))
    });
    // Nor one for a sheet.
    let chain =
        [(); 2].map(|()| inputs.chain(|key, seed| osmo::ta11_ta41(&start(key), &start(seed))));
    let columns = [None, None];
    calls
        .chain(books(inputs))
        .chain(columns)
        .chain(class)
        .chain(chain)
        .collect()
}

fn texts(inputs: &Inputs) -> [Round<'_>; 9] {
    let keys = &inputs.keys;
    let version = VERSION.to_be_bytes();
    let number = NUMBER.to_be_bytes();
    // EXP4 differs, so kind 1 has keys of its own for the same results.
    let repaired = |key: &[u8; 16]| osmo::repaired(&start(key), VERSION);
    let seal_keys: Vec<[u8; 10]> = keys.iter().map(repaired).collect();
    let unseal_keys = seal_keys.clone();
    [
        inputs.texts(|i, text| *text = start(&osmo::ta11_ta41(&keys[i], &start(text)))),
        inputs.texts(move |i, text| *text = osmo::ta31(&start(text), &version, &seal_keys[i])),
        inputs.texts(move |i, text| {
            let (key, [flag]) = osmo::ta32(text, &version, &unseal_keys[i]);
            put(text, &key, 0, flag != 0);
        }),
        inputs.texts(move |i, text| {
            *text = osmo::ta51(&start(text), &version, &keys[i], &[number[1]]);
        }),
        inputs.texts(move |i, text| {
            let (key, [flag], [byte]) = osmo::ta52(text, &keys[i], &version);
            put(text, &key, u16::from(byte % 32), flag != 0);
        }),
        inputs.texts(move |i, text| {
            *text = osmo::ta81(&start(text), &version, &number, &keys[i]);
        }),
        inputs.texts(move |i, text| {
            let (key, [flag], number) = osmo::ta82(text, &version, &keys[i]);
            put(text, &key, u16::from_be_bytes(number), flag != 0);
        }),
        inputs.texts(move |i, text| *text = osmo::ta91(&start(text), &version, &keys[i])),
        inputs.texts(move |i, text| {
            let (key, [flag]) = osmo::ta92(text, &version, &keys[i]);
            put(text, &key, 0, flag != 0);
        }),
    ]
}

/// The same seals and unseals, one for each record, and identities as they are.
fn books(inputs: &Inputs) -> [Round<'_>; 2] {
    // O seals kinds 2 to 4, and G kinds 5 and 6.
    let (o, g) = (start(&inputs.ring[10..]), start(&inputs.ring[36..]));
    let long = move |record: &[u8]| if record[0] < 5 { o } else { g };
    // Again kind 1 has keys of its own, here for each record's version.
    let repaired = |record: &[u8]| {
        let version = u16::from_be_bytes(start(&record[4..]));
        osmo::repaired(&start(&inputs.ring), version)
    };
    let seal_keys: Vec<[u8; 10]> = inputs.plain.chunks(PLAIN).map(repaired).collect();
    let open_keys = seal_keys.clone();
    [
        inputs.book(SEALED, move |out| {
            let records = inputs.plain.chunks(PLAIN).zip(&seal_keys);
            for ((record, d), out) in records.zip(out.chunks_mut(SEALED)) {
                out[..6].copy_from_slice(&record[..6]);
                out[6..].copy_from_slice(&sealed(record, d, &long(record)));
            }
        }),
        inputs.book(PLAIN, move |out| {
            let records = inputs.sealed.chunks(SEALED).zip(&open_keys);
            for ((record, d), out) in records.zip(out.chunks_mut(PLAIN)) {
                out[..6].copy_from_slice(&record[..6]);
                out[6..].copy_from_slice(&opened(record, d, &long(record)));
            }
        }),
    ]
}

fn sealed(record: &[u8], d: &[u8; 10], long: &[u8; 16]) -> [u8; 15] {
    let (version, body) = (start(&record[4..]), &record[6..]);
    match record[0] {
        1 => osmo::ta31(&start(body), &version, d),
        2 | 5 => osmo::ta51(&start(body), &version, long, &start(&body[11..])),
        3 | 6 => osmo::ta81(&start(body), &version, &start(&body[10..]), long),
        _ => osmo::ta91(&start(body), &version, long),
    }
}

fn opened(record: &[u8], d: &[u8; 10], long: &[u8; 16]) -> [u8; 12] {
    let (version, text) = (start(&record[4..]), start(&record[6..]));
    let (key, number, flag) = match record[0] {
        1 => {
            let (key, [flag]) = osmo::ta32(&text, &version, d);
            (key, [0, 0], flag)
        }
        2 | 5 => {
            let (key, [flag], [number]) = osmo::ta52(&text, long, &version);
            (key, [0, number], flag)
        }
        3 | 6 => {
            let (key, [flag], number) = osmo::ta82(&text, &version, long);
            (key, number, flag)
        }
        _ => {
            let (key, [flag]) = osmo::ta92(&text, &version, long);
            (start(&key), start(&key[10..]), flag)
        }
    };
    assert_eq!(flag, 0);
    from_fn(|i| if i < 10 { key[i] } else { number[i - 10] })
}

fn start<const N: usize>(bytes: &[u8]) -> [u8; N] {
    from_fn(|i| bytes[i])
}
