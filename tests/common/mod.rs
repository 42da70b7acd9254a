//! What the tests share: tables, their texts and their places, and plain readings that the library is held beside, and what types derive.

pub(crate) mod configs;
pub(crate) mod corrected;
pub(crate) mod derives;
pub(crate) mod dice;
pub(crate) mod drawings;
pub(crate) mod outlined;
pub(crate) mod printing;
pub(crate) mod spanned;
pub(crate) mod tables;
