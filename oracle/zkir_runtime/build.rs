include!("../published.rs");

fn main() {
    take_published("zkir-runtime", &["execute", "deferred", "normalize"]);
}
