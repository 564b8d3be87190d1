//! The crate and the archive that it is linked with belong together.

#[test]
fn the_archive_has_this_interface() {
    assert_eq!(layer1::version(), layer1::VERSION);
}
