//! Links the archive of the proved crates, which `tools/build-archive` makes:
//! into this program on x86-64, elsewhere into one for the emulator
//! `qemu-x86_64`. Where `PROVED_NATIVE` is set, what `tools/native-archive` made
//! of it for another machine is linked into this program.

use std::path::{Path, PathBuf};
use std::process::Command;
use std::{env, process};

const EMULATOR: &str = "qemu-x86_64";

fn main() {
    let native = env::var_os("PROVED_NATIVE").is_some();
    let (folder, maker) = match native {
        true => ("target/native", "tools/native-archive"),
        false => ("crates/exports/out", "tools/build-archive"),
    };
    let top = Path::new(&variable("CARGO_MANIFEST_DIR")).join("../..");
    let archive = top.join(folder).join("libexports.a");
    println!("cargo:rerun-if-env-changed=PROVED_NATIVE");
    println!("cargo:rerun-if-changed={}", archive.display());
    println!("cargo:rerun-if-changed=src/servant.c");
    println!("cargo:rustc-check-cfg=cfg(linked)");
    if !archive.exists() {
        stop(&format!(
            "The archive of the proved crates is missing: run `{maker}` at the top of the repository."
        ));
    }
    match variable("CARGO_CFG_TARGET_ARCH").as_str() {
        "x86_64" => link(&archive),
        _ if native => link(&archive),
        machine => {
            if Command::new(EMULATOR).arg("--version").output().is_err() {
                stop(&format!(
                    "The archive is for x86-64; on {machine} it needs {EMULATOR}, which the Rattle kit has not."
                ));
            }
            build_servant(&archive, &kit().join("toolchain/bin"))
        }
    }
}

/// The crate's `linked` is set where the load is in this program.
fn link(archive: &Path) {
    println!("cargo:rustc-cfg=linked");
    let folder = archive.parent().expect("the archive has a folder");
    println!("cargo:rustc-link-search=native={}", folder.display());
    println!("cargo:rustc-link-lib=static=exports");
    name_servant("", "");
}

/// Tells the crate where the emulator and its program are; the crate is compiled
/// for both ways, also where there are none.
fn name_servant(emulator: &str, servant: &str) {
    println!("cargo:rustc-env=PROVED_EMULATOR={emulator}");
    println!("cargo:rustc-env=PROVED_SERVANT={servant}");
}

fn build_servant(archive: &Path, tools: &Path) {
    let made = |name: &str| Path::new(&variable("OUT_DIR")).join(name);
    let (object, servant) = (made("servant.o"), made("servant"));
    let compiling =
        ["--target=x86_64-unknown-linux-gnu", "-O2", "-ffreestanding", "-fno-stack-protector", "-c"];
    run(Command::new(tools.join("clang")).args(compiling).arg("src/servant.c").arg("-o").arg(&object));
    run(Command::new(tools.join("ld.lld")).arg("-static").arg("-o").arg(&servant).arg(&object).arg(archive));
    name_servant(EMULATOR, &servant.display().to_string());
}

/// The folder of the Rattle kit, of whose guide `rt doc` tells the path.
fn kit() -> PathBuf {
    let told = Command::new("rt").arg("doc").output().unwrap_or_else(|_| stop("`rt` was not found."));
    let guide = PathBuf::from(String::from_utf8_lossy(&told.stdout).trim());
    guide.parent().unwrap_or_else(|| stop("`rt doc` tells no path.")).into()
}

fn run(command: &mut Command) {
    if !command.status().is_ok_and(|status| status.success()) {
        stop(&format!("This command failed: {command:?}"));
    }
}

fn variable(name: &str) -> String {
    env::var(name).unwrap_or_else(|_| stop(&format!("Cargo has not set {name}.")))
}

fn stop(why: &str) -> ! {
    eprintln!("{why}");
    process::exit(1)
}
