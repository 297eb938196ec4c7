// Compiles the library's C file, or links an installed archive, libsymdemangle.a.
//
// The C file is in csrc/ of a released crate, and in dist/ of the repository. With the feature `installed`, with SYMDEMANGLE_DIR, and where
// there is no C file, the archive is linked. SYMDEMANGLE_DIR names its folder; if it isn't set, the folders in which packages put the
// archive are searched.
use std::env;
use std::path::{Path, PathBuf};
use std::process::exit;

const SOURCES: [&str; 2] = ["csrc", "../../dist"];
const USUAL: [&str; 5] =
    ["/usr/local/lib", "/usr/lib/x86_64-linux-gnu", "/usr/lib/aarch64-linux-gnu", "/usr/lib64", "/usr/lib"];

fn is_feature(name: &str) -> bool {
    env::var_os(format!("CARGO_FEATURE_{name}")).is_some()
}

fn main() {
    println!("cargo:rerun-if-env-changed=SYMDEMANGLE_DIR");
    // docs.rs has no library, and links nothing
    if is_feature("UNLINKED") || env::var_os("DOCS_RS").is_some() {
        return;
    }
    let folder = env::var_os("SYMDEMANGLE_DIR");
    let source = SOURCES.into_iter().map(Path::new).find(|source| source.join("symdemangle.c").is_file());
    match source {
        Some(source) if folder.is_none() && !is_feature("INSTALLED") => compile(source),
        _ => link(folder.map(PathBuf::from)),
    }
}

/// Compiles the C file of a folder.
fn compile(source: &Path) {
    println!("cargo:rerun-if-changed={}", source.display());
    if env::var("CARGO_CFG_TARGET_ENV").as_deref() == Ok("msvc") {
        println!("cargo:warning=symdemangle: Microsoft's compiler has no __int128, which the C file uses; build for x86_64-pc-windows-gnu");
    }
    let mut build = cc::Build::new();
    // optimized in debug builds too: otherwise a name takes several times as long; -O2 compiles for twice as long, and gains little
    build.opt_level(1);
    build.file(source.join("symdemangle.c")).include(source).warnings(false).compile("symdemangle");
}

/// Links the archive of a folder, or of a usual one.
fn link(folder: Option<PathBuf>) {
    let folders = folder.map_or_else(|| USUAL.iter().map(PathBuf::from).collect(), |folder| vec![folder]);
    let Some(folder) = folders.iter().find(|folder| folder.join("libsymdemangle.a").is_file()) else {
        eprintln!("symdemangle: there is no libsymdemangle.a in {folders:?}.");
        eprintln!("Install the library, or name its folder: SYMDEMANGLE_DIR=/opt/symdemangle/lib.");
        eprintln!("A released crate brings the C file in csrc/, and compiles it without SYMDEMANGLE_DIR and the feature `installed`.");
        eprintln!("To check or to document code without it, build with the feature `unlinked` of this crate.");
        exit(1);
    };
    println!("cargo:rustc-link-search=native={}", folder.display());
    println!("cargo:rustc-link-lib=static=symdemangle");
    println!("cargo:rerun-if-changed={}", folder.join("libsymdemangle.a").display());
}
