//! Writes docs/angles.svg to standard output.

fn main() {
    print!("{}", oracle::picture::draw());
}
