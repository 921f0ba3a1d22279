//! Links the libnbt.a of the target that lies in the crate's folder lib, as in the crate of `make dist`. Where there is none it
//! asks pkg-config where libnbt is, and says so to Cargo. With NBT_STATIC=1 libnbt.a is linked, and no file of the library is
//! needed when the program runs.

use std::env;
use std::path::Path;
use std::process::{exit, Command};

/// What the answer depends on.
const ASKED: [&str; 5] = ["PKG_CONFIG", "PKG_CONFIG_PATH", "PKG_CONFIG_LIBDIR", "PKG_CONFIG_SYSROOT_DIR", "NBT_STATIC"];

fn main() {
    println!("cargo:rerun-if-changed=build.rs");
    for name in ASKED {
        println!("cargo:rerun-if-env-changed={name}");
    }
    if link_own() {
        return;
    }
    match linker_flags() {
        Ok(flags) => words(&flags).iter().for_each(|word| link(word)),
        Err(reason) => {
            eprintln!("libnbt wasn't found: {reason}");
            eprintln!("`make install-lib` installs it; PKG_CONFIG_PATH may name its folder");
            exit(1);
        }
    }
}

/// Links the library of the crate's own folder, if it has one for this target.
fn link_own() -> bool {
    let of = |name| env::var(name).unwrap_or_default();
    let target = of("CARGO_CFG_TARGET_ARCH") + "-" + &of("CARGO_CFG_TARGET_OS");
    let folder = Path::new(&of("CARGO_MANIFEST_DIR")).join("lib").join(target);
    if !folder.join("libnbt.a").exists() {
        return false;
    }
    println!("cargo:rustc-link-search=native={}", folder.display());
    println!("cargo:rustc-link-lib=static=nbt");
    true
}

/// What pkg-config says that the linker has to be told.
fn linker_flags() -> Result<String, String> {
    let program = env::var("PKG_CONFIG").unwrap_or_else(|_| "pkg-config".into());
    let done =
        Command::new(&program).args(["--libs", "nbt"]).output().map_err(|error| format!("{program}: {error}"))?;
    if done.status.success() {
        Ok(String::from_utf8_lossy(&done.stdout).into_owned())
    } else {
        Err(String::from_utf8_lossy(&done.stderr).trim().into())
    }
}

/// The words of a line, in which a backslash stands before a space that is part of a word.
fn words(line: &str) -> Vec<String> {
    let mut words = vec![String::new()];
    let mut letters = line.trim().chars();
    while let Some(letter) = letters.next() {
        match letter {
            ' ' => words.push(String::new()),
            '\\' => words.last_mut().unwrap().extend(letters.next()),
            _ => words.last_mut().unwrap().push(letter),
        }
    }
    words.retain(|word| !word.is_empty());
    words
}

/// Tells Cargo what a word for the linker says.
fn link(word: &str) {
    if let Some(folder) = word.strip_prefix("-L") {
        println!("cargo:rustc-link-search=native={folder}");
    } else if let Some(library) = word.strip_prefix("-l") {
        let kind = if env::var("NBT_STATIC").as_deref() == Ok("1") { "static" } else { "dylib" };
        println!("cargo:rustc-link-lib={kind}={library}");
    } else {
        println!("cargo:rustc-link-arg={word}");
    }
}
