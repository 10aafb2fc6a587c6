//! Makes a module of each monitor in `monitors/`, as `expresso emit` prints it.
//!
//! The program is the one that the environment names as `EXPRESSO`, else `expresso` on the path.
//! Where there is none, the module that is kept beside the monitor is taken.

use std::error::Error;
use std::io::ErrorKind;
use std::path::{Path, PathBuf};
use std::process::Command;
use std::{env, fs};

fn main() -> Result<(), Box<dyn Error>> {
    println!("cargo:rerun-if-changed=monitors");
    println!("cargo:rerun-if-env-changed=EXPRESSO");
    println!("cargo:rerun-if-env-changed=PATH");
    let out = PathBuf::from(env::var_os("OUT_DIR").ok_or("cargo names no OUT_DIR")?);
    for entry in fs::read_dir("monitors")? {
        let monitor = entry?.path();
        if monitor
            .extension()
            .is_some_and(|extension| extension == "mon")
        {
            let kept = monitor.with_extension("rs");
            let module = match emitted(&monitor)? {
                Some(module) => module,
                None => kept_module(&kept)?,
            };
            fs::write(out.join(kept.file_name().ok_or("no name")?), module)?;
        }
    }
    Ok(())
}

/// The module that is kept, which may be that of an older monitor.
fn kept_module(kept: &Path) -> Result<Vec<u8>, Box<dyn Error>> {
    let name = kept.display();
    println!("cargo:warning=there is no expresso: {name} is taken as it stands");
    fs::read(kept).map_err(|error| format!("{name}, and no expresso to make it: {error}").into())
}

/// The monitor's module, or `None` where no program was named and none is on the path.
fn emitted(monitor: &Path) -> Result<Option<Vec<u8>>, Box<dyn Error>> {
    let named = env::var_os("EXPRESSO");
    let program = named.clone().unwrap_or_else(|| "expresso".into());
    let run = match Command::new(&program).arg("emit").arg(monitor).output() {
        Ok(run) => run,
        Err(error) if error.kind() == ErrorKind::NotFound && named.is_none() => return Ok(None),
        Err(error) => return Err(format!("{}: {error}", program.to_string_lossy()).into()),
    };
    if run.status.success() {
        return Ok(Some(run.stdout));
    }
    // Why a file is refused stands on standard output, and a hint on standard error.
    let said = String::from_utf8_lossy(&run.stdout);
    let hint = String::from_utf8_lossy(&run.stderr);
    let name = program.to_string_lossy();
    Err(format!("{name} emit: {}\n{}", said.trim_end(), hint.trim_end()).into())
}
