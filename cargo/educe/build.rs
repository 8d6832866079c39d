//! Has Cargo expand definitions anew when `EDUCE` names another program, or when the program itself changes.

use std::{
    env,
    ffi::OsString,
    path::{Path, PathBuf},
};

fn main() {
    println!("cargo:rerun-if-env-changed=EDUCE");
    println!("cargo:rerun-if-changed=build.rs");
    let name = env::var_os("EDUCE").unwrap_or_else(|| OsString::from("educe"));
    if let Some(program) = found(Path::new(&name)) {
        println!("cargo:rerun-if-changed={}", program.display());
    }
}

/// The file of the program: as it is named, or on the search path if the name has no folder.
fn found(name: &Path) -> Option<PathBuf> {
    if name.components().count() > 1 {
        return Some(name.to_owned()).filter(|program| program.is_file());
    }
    let folders = env::var_os("PATH")?;
    env::split_paths(&folders)
        .map(|folder| folder.join(name))
        .find(|program| program.is_file())
}
