//! Holds the version of this crate against the header's and the program `tables`'. Nothing is linked.
//! (tools/words holds the sentences of the codes.)

const HEADER: &str = include_str!("../../../include/couplerfinch.h");
const SAYS: &str = include_str!("../../../crates/tables/src/say.rt");

#[test]
fn versions_are_equal() {
    let version = env!("CARGO_PKG_VERSION");
    assert!(HEADER.contains(&format!("#define COUPLERFINCH_VERSION \"{version}\"\n")));
    assert!(SAYS.contains(&format!("put(rt, b\"couplerfinch {version}\\n\")")));
}
