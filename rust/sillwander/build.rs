//! Tells cargo where the archives are: `SILLWANDER_ARCHIVES`, or the repository's `target/staticlib`, where
//! `tools/archives` puts them, or `lib` in a release. Where they aren't, it says so and goes on: `cargo check`, `doc` and
//! `clippy` don't link. What links then ends with the sentence in src/archives.rs.

use std::{env, path::PathBuf};

fn main() {
    println!("cargo::rustc-check-cfg=cfg(sillwander_without_archives)");
    println!("cargo::rerun-if-env-changed=SILLWANDER_ARCHIVES");
    let folder = match env::var_os("SILLWANDER_ARCHIVES") {
        Some(folder) => PathBuf::from(folder),
        None => {
            let top = PathBuf::from(env::var_os("CARGO_MANIFEST_DIR").expect("cargo sets it")).join("../..");
            let [built, released] = ["target/staticlib", "lib"].map(|folder| top.join(folder));
            // any project may have a folder of that name above it
            if released.join("libvioapic_c.a").is_file() { released } else { built }
        }
    };
    let files = ["vioapic_c", "vpic_c", "vlapic_c", "board_c", "vcpus", "waiting_c", "image_c", "planner_c"]
        .map(|archive| folder.join(format!("lib{archive}.a")));
    for file in &files {
        // one that is missing is looked for again at the next build
        println!("cargo::rerun-if-changed={}", file.display());
    }
    match files.iter().find(|file| !file.is_file()) {
        None => println!("cargo::rustc-link-search=native={}", folder.display()),
        Some(missing) => {
            println!("cargo::rustc-cfg=sillwander_without_archives");
            println!(
                "cargo::warning={} isn't there: check, doc and clippy do without it; before anything is linked, run \
                 tools/archives, or name the archives' folder by SILLWANDER_ARCHIVES",
                missing.display()
            );
        }
    }
}
