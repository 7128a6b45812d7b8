include!("../published.rs");

fn main() {
    take_published("zkir-spec", &["encoding"]);
}
