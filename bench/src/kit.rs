//! Where the parts of the kit are that the bench uses.

use std::path::{Path, PathBuf};
use std::process::Command;

/// The kit's folder: the kit says where its guide is, which lies right in it.
pub fn folder() -> Result<PathBuf, String> {
    let output = Command::new("rt")
        .arg("doc")
        .output()
        .map_err(|error| format!("cannot run 'rt doc', which tells where the kit is: {error}"))?;
    let guide = String::from_utf8_lossy(&output.stdout);
    let kit = Path::new(guide.trim()).parent().filter(|kit| !kit.as_os_str().is_empty());
    kit.map(Path::to_path_buf)
        .ok_or_else(|| format!("'rt doc' tells no path but '{}'", guide.trim()))
}

/// The compiler and what goes with it.
pub fn toolchain() -> Result<PathBuf, String> {
    Ok(folder()?.join("toolchain"))
}
