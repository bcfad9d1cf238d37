//! Finds `liblivevec.a` and has the linker take it.
//!
//! Looked at in this order: the folder `LIVEVEC_LIB_DIR`; what `pkg-config` says of `livevec`; the folder `build` of the repository that
//! this crate is in; `$HOME/.local/lib`; `/usr/local/lib`. If it is in none of them the build ends with a message that says so.

use std::env;
use std::path::{Path, PathBuf};
use std::process::Command;

const ARCHIVE: &str = "liblivevec.a";

fn main() {
    println!("cargo::rerun-if-env-changed=LIVEVEC_LIB_DIR");
    println!("cargo::rerun-if-env-changed=PKG_CONFIG_PATH");
    println!("cargo::rerun-if-env-changed=HOME");
    println!("cargo::rerun-if-changed=build.rs");
    match folder() {
        Ok(folder) => {
            println!("cargo::rerun-if-changed={}", folder.join(ARCHIVE).display());
            println!("cargo::rustc-link-search=native={}", folder.display());
            println!("cargo::rustc-link-lib=static=livevec");
            println!("cargo::metadata=lib_dir={}", folder.display());
        }
        Err(message) => println!("cargo::error={message}"),
    }
}

/// The folder that has the archive.
fn folder() -> Result<PathBuf, String> {
    if let Some(named) = env::var_os("LIVEVEC_LIB_DIR") {
        let named = PathBuf::from(named);
        return match holds(&named) {
            true => Ok(named),
            false => Err(format!("LIVEVEC_LIB_DIR is {}, which has no {ARCHIVE}", named.display())),
        };
    }
    packaged()
        .into_iter()
        .chain(usual())
        .find(|folder| holds(folder))
        .ok_or_else(|| format!("there is no {ARCHIVE}: run `make install UNPROVED=1 PREFIX=$HOME/.local` in livevec's repository, or name its folder by LIVEVEC_LIB_DIR"))
}

/// Where the archive is if nothing says where.
fn usual() -> impl Iterator<Item = PathBuf> {
    let built = PathBuf::from(env::var_os("CARGO_MANIFEST_DIR").unwrap_or_default()).join("../../build");
    let home = env::var_os("HOME").map(|home| PathBuf::from(home).join(".local/lib"));
    [Some(built), home, Some(PathBuf::from("/usr/local/lib"))].into_iter().flatten()
}

fn holds(folder: &Path) -> bool {
    folder.join(ARCHIVE).is_file()
}

/// What `pkg-config` says, if there is one and it knows livevec.
fn packaged() -> Option<PathBuf> {
    let variable = |name: &str| {
        let said = Command::new("pkg-config").arg(format!("--variable={name}")).arg("livevec").output().ok()?;
        // it writes a space of a folder's name behind a backslash
        let value = String::from_utf8(said.stdout).ok()?.trim().replace("\\ ", " ");
        (said.status.success() && !value.is_empty()).then(|| PathBuf::from(value))
    };
    variable("libdir").or_else(|| Some(variable("prefix")?.join("lib")))
}
