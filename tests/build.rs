//! Tells the tests where the archive is that the wrapper links.

fn main() {
    println!("cargo::rerun-if-changed=build.rs");
    println!("cargo::rerun-if-env-changed=DEP_CARD_ARCHIVE");
    if let Ok(archive) = std::env::var("DEP_CARD_ARCHIVE") {
        println!("cargo::rustc-env=CARD_ARCHIVE={archive}");
    }
}
