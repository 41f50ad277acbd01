//! size: a file of the most bytes there may be, read to the byte past them. It takes a while, so
//! it stands apart from the generated cases. Here the model stands in for the front.
#![forbid(unsafe_code)]
use model::case::ModelFront;
use model::size::compare_size;

fn main() {
    match compare_size(&mut ModelFront::new(0)) {
        Ok(codes) => println!("alike; replies at the limit: {codes:?}"),
        Err(d) => println!("differs at call {}: {}", d.step, d.what),
    }
}
