//! The engine. The calls are its own; the steps are another archive's.

use crate::{figures, Inputs, Round, Rounds, KEY_MASK, RESPONSE_MASK};
use host::both::{AUTHENTICATION, PLAIN, SEALED};
use host::engine;
use interface::SHEET_VALUE_BYTES;

pub fn rounds(inputs: &Inputs) -> Rounds<'_> {
    let [schedule, block] = steps(inputs);
    let flip: Round = Some(Box::new(|| {
        let tally = engine::diffusion(&inputs.tally);
        figures(tally.total, tally.least, tally.greatest)
    }));
    let cipher = [
        schedule,
        block,
        inputs.calls(|key, block| *block = engine::encrypt(key, block).bytes),
        inputs.calls(|key, block| *block = engine::encrypt_register(key, block).bytes),
        inputs.calls(|key, block| *block = engine::decrypt(key, block).bytes),
        inputs.calls(|key, block| *block = engine::decrypt_register(key, block).bytes),
        flip,
    ];
    let session_key = &inputs.keys[0];
    let lists = [
        inputs.book(SEALED, |out| {
            engine::seal_book(&inputs.ring, &inputs.plain, out);
        }),
        inputs.book(PLAIN, |out| {
            engine::open_book(&inputs.ring, &inputs.sealed, out);
        }),
        inputs.rearranged(|out| {
            engine::plain_to_columns(&inputs.plain, out);
        }),
        inputs.rearranged(|out| {
            engine::plain_from_columns(&inputs.plain, out);
        }),
        inputs.challenges(|challenge| {
            let one = engine::ta12(session_key, challenge, RESPONSE_MASK, KEY_MASK);
            (one.response, one.key)
        }),
        inputs.book(AUTHENTICATION, |out| {
            engine::ta12_class(
                session_key,
                &inputs.challenges,
                RESPONSE_MASK,
                KEY_MASK,
                out,
            );
        }),
        inputs.chain(|key, seed| engine::ta11(key, seed).bytes),
        inputs.book(SHEET_VALUE_BYTES, |out| {
            engine::lineage(&inputs.sheet, out);
        }),
    ];
    let calls = cipher.into_iter().chain(texts!(inputs, engine));
    calls.chain(lists).collect()
}

#[cfg(steps)]
fn steps(inputs: &Inputs) -> [Round<'_>; 2] {
    use std::hint::black_box;

    extern "C" {
        fn taa1_bench_schedule(key: *const u8, keys: *mut u8);
        fn taa1_bench_encrypt_with(keys: *const u8, block: *mut u8);
    }

    // SAFETY, here and below: keys have 16 bytes, round keys 192, blocks 8.
    let schedule = |key: &[u8; 16], keys: &mut [u8; 192]| unsafe {
        taa1_bench_schedule(key.as_ptr(), keys.as_mut_ptr());
    };
    let mut laid_out = [0; 192];
    schedule(&inputs.keys[0], &mut laid_out);
    let mut keys = [0; 192];
    [
        inputs.schedules(move |key| {
            schedule(key, &mut keys);
            black_box(&keys);
        }),
        inputs.blocks(move |block| unsafe {
            taa1_bench_encrypt_with(laid_out.as_ptr(), block.as_mut_ptr());
        }),
    ]
}

#[cfg(not(steps))]
fn steps(_: &Inputs) -> [Round<'_>; 2] {
    [None, None]
}
