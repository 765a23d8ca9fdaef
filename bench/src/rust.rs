//! The independent implementation in Rust, at opt-level 3.

use crate::{Inputs, Rounds, KEY_MASK, RESPONSE_MASK};
use host::both::{AUTHENTICATION, PLAIN, SEALED};
use host::{books, class, hurdle, taa1};
use std::hint::black_box;

pub fn rounds(inputs: &Inputs) -> Rounds<'_> {
    let keys = hurdle::schedule(&inputs.keys[0]);
    let cipher = [
        inputs.schedules(|key| {
            let keys = hurdle::schedule(key);
            black_box(&keys);
        }),
        inputs.blocks(move |block| *block = hurdle::encrypt_with(&keys, block)),
        // It has round keys only, so both forms are the same here.
        inputs.calls(|key, block| *block = hurdle::encrypt(key, block)),
        inputs.calls(|key, block| *block = hurdle::encrypt(key, block)),
        inputs.calls(|key, block| *block = hurdle::decrypt(key, block)),
        inputs.calls(|key, block| *block = hurdle::decrypt(key, block)),
        inputs.flips(hurdle::schedule, |keys, block| {
            hurdle::encrypt_with(keys, &block)
        }),
    ];
    let session_key = &inputs.keys[0];
    let lists = [
        inputs.book(SEALED, |out| {
            books::seal_book(&inputs.ring, &inputs.plain, out);
        }),
        inputs.book(PLAIN, |out| {
            books::open_book(&inputs.ring, &inputs.sealed, out);
        }),
        None,
        None,
        inputs.challenges(|challenge| {
            let one = taa1::ta12(session_key, challenge, RESPONSE_MASK, KEY_MASK);
            (one.response, one.key)
        }),
        inputs.book(AUTHENTICATION, |out| {
            class::ta12_class(
                session_key,
                &inputs.challenges,
                RESPONSE_MASK,
                KEY_MASK,
                out,
            );
        }),
    ];
    let calls = cipher.into_iter().chain(texts!(inputs, taa1));
    // Both rows of the sheet are its derivations one by one.
    let chain = [(); 2].map(|()| inputs.chain(|key, seed| taa1::ta11(key, seed).bytes));
    calls.chain(lists).chain(chain).collect()
}
