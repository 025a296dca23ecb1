//! Links the port: PORT names the object or archive that holds its exported functions.
fn main() {
    println!("cargo:rerun-if-env-changed=PORT");
    let port = std::env::var("PORT").expect("PORT: the object or archive of the exported functions (tools/judge sets it)");
    println!("cargo:rerun-if-changed={port}");
    println!("cargo:rustc-link-arg={port}");
}
