// The archive that `tools/archive` leaves at the top of the repository.
fn main() {
    let top = concat!(env!("CARGO_MANIFEST_DIR"), "/../..");
    println!("cargo:rustc-link-search=native={top}/target/staticlib");
    println!("cargo:rerun-if-changed={top}/target/staticlib/libzone_c.a");
}
