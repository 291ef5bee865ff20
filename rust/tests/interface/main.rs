//! The crate's functions against the linked library: document 01's bench cases, every number, and
//! tables as text, programs, filled sheets and moved spans beside models of them, on memory that is
//! watched.

mod bases;
mod bench;
mod expressions;
mod lent;
mod listing;
mod model;
mod program;
mod random;
mod readings;
mod refusals;
mod selection;
mod tables;

/// The header and the crate are one interface, so they have one version.
#[test]
fn header_has_this_version() {
    let header = include_str!("../../../include/tholdrimash.h");
    let line = concat!(
        "#define THOLDRIMASH_VERSION \"",
        env!("CARGO_PKG_VERSION"),
        "\"\n"
    );
    assert!(header.contains(line));
}
