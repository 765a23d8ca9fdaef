//! osmo-tetra beside the engine. Its code is fetched and stays out of this
//! repository; only the declarations of the functions that are called are here.

#[cfg(peer)]
pub mod osmo;
