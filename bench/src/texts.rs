//! Session keys, seals and unseals through the calls of a module: the engine's
//! and the independent implementation's have the same names and shapes.

macro_rules! texts {
    ($inputs:ident, $calls:ident) => {{
        use crate::{put, NUMBER, VERSION};
        let keys = &$inputs.keys;
        [
            $inputs.texts(|i, text| {
                let made = $calls::ta11(&keys[i], &text[..10]).bytes;
                text.copy_from_slice(&made[..15]);
            }),
            $inputs.texts(|i, text| {
                *text = $calls::ta31(&text[..10], VERSION.into(), &keys[i][..10]).bytes;
            }),
            $inputs.texts(|i, text| {
                let opened = $calls::ta32(text, &keys[i][..10], VERSION.into());
                put(text, &opened.key, 0, opened.failed_checks != 0);
            }),
            $inputs.texts(|i, text| {
                *text = $calls::ta51(&text[..10], VERSION.into(), &keys[i], NUMBER.into()).bytes;
            }),
            $inputs.texts(|i, text| {
                let opened = $calls::ta52(text, &keys[i], VERSION.into());
                put(text, &opened.key, opened.number, opened.failed_checks != 0);
            }),
            $inputs.texts(|i, text| {
                *text = $calls::ta81(&text[..10], VERSION.into(), &keys[i], NUMBER.into()).bytes;
            }),
            $inputs.texts(|i, text| {
                let opened = $calls::ta82(text, &keys[i], VERSION.into());
                put(text, &opened.key, opened.number, opened.failed_checks != 0);
            }),
            $inputs.texts(|i, text| {
                *text = $calls::ta91(&text[..12], VERSION.into(), &keys[i]).bytes;
            }),
            $inputs.texts(|i, text| {
                let opened = $calls::ta92(text, &keys[i], VERSION.into());
                put(text, &opened.key, 0, opened.failed_checks != 0);
            }),
        ]
    }};
}
