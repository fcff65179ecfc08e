//! How many of all pairs of signed bytes have each amplitude, and lie in each sector, as a picture:
//! `cargo run --example census > census.svg`

#[path = "census/picture.rs"]
mod picture;
#[path = "swap/svg.rs"]
mod svg;

fn main() {
    print!("{}", picture::draw(&volkjarp::census()));
}
