//! The sample stream's lines, by Display.

use std::fs;
use std::path::Path;

use volkjarp::{Room, Settings};

#[test]
fn lines_of_the_sample_stream() {
    let samples = Path::new(env!("CARGO_MANIFEST_DIR")).join("../samples");
    let stream = fs::read(samples.join("room.stream")).unwrap();
    let due = fs::read_to_string(samples.join("room.lines")).unwrap();
    let mut room = Room::new(&Settings::new(50)).unwrap();
    let lines = room
        .run(&stream)
        .into_iter()
        .map(|answer| format!("{answer}\n"));
    assert_eq!(lines.collect::<String>(), due);
}
