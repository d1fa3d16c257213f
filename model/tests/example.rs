//! The files of the examples are those that the model makes.

use rtcm2_model::example;
use std::fs;
use std::path::Path;

#[test]
fn the_files_are_as_made() {
    let folder = Path::new(env!("CARGO_MANIFEST_DIR")).join("../examples");
    let bytes = fs::read(folder.join("stream.bin")).unwrap();
    let text = fs::read_to_string(folder.join("expected.txt")).unwrap();
    assert_eq!(bytes, example::stream());
    assert_eq!(text, example::expected(&bytes));
}
