//! Finds libbay_market.a: in the folder that BAY_MARKET_LIB_DIR names, or in the repository that this crate stands in.
//! It is to serve callers of this crate's version: a library exports a function for each version that it serves,
//! bay_market_1_0_0 for 1.0.0.

use std::path::{Path, PathBuf};
use std::process::{Command, exit};
use std::{env, fs};

fn fail(message: &str) -> ! {
    println!("cargo::error={message}");
    exit(1)
}

/// The repository's folder with files of the sources as they are, for that machine.
fn current(machine: &str) -> PathBuf {
    let root = Path::new(env!("CARGO_MANIFEST_DIR")).join("../..");
    let script = root.join("scripts/current");
    if !script.is_file() {
        fail("set BAY_MARKET_LIB_DIR to the folder with libbay_market.a, as PREFIX/lib after `scripts/install PREFIX`");
    }
    // beside a crate's sources stands out/, which every check writes
    let crates = fs::read_dir(root.join("crates")).into_iter().flatten().flatten().map(|entry| entry.path());
    let sources = crates.flat_map(|folder| ["src", "specs", "proofs"].map(|part| folder.join(part)));
    let others = ["crates.txt", "prebuilt", "target/dist/SOURCES.sha256", "target/targets"].map(|name| root.join(name));
    for source in sources.chain(others).filter(|path| path.exists()) {
        println!("cargo::rerun-if-changed={}", source.display());
    }
    let root = root.canonicalize().unwrap_or(root);
    match Command::new(&script).arg(machine).output() {
        Ok(output) if output.status.success() => PathBuf::from(String::from_utf8_lossy(&output.stdout).trim_end()),
        _ => fail(&format!(
            "no libbay_market.a of these sources for {machine}: run {} in {}, with the Rattle kit, or set BAY_MARKET_LIB_DIR",
            if machine == "x86_64" { "scripts/build" } else { "scripts/targets on x86-64" },
            root.display()
        )),
    }
}

/// The versions that an archive serves, by the names of its functions.
fn versions(archive: &[u8]) -> Vec<String> {
    let names = archive.split(|&byte| byte == 0).filter_map(|name| std::str::from_utf8(name).ok());
    let served = names.filter_map(|name| name.strip_prefix("bay_market_")).filter(|version| {
        let numbers: Vec<&str> = version.split('_').collect();
        numbers.len() == 3 && numbers.iter().all(|number| number.parse::<u32>().is_ok())
    });
    served.map(|version| version.replace('_', ".")).collect::<std::collections::BTreeSet<_>>().into_iter().collect()
}

fn hold_to_version(archive: &Path) {
    let version = env!("CARGO_PKG_VERSION");
    let bytes = fs::read(archive).unwrap_or_else(|error| fail(&format!("{}: {error}", archive.display())));
    let served = versions(&bytes);
    if !served.iter().any(|one| one == version) {
        let of = if served.is_empty() { "a version before 1.0.0".to_string() } else { served.join(" and ") };
        fail(&format!("{} is of {of}, this crate is of {version}: take the library of the same version", archive.display()));
    }
}

fn main() {
    println!("cargo::rerun-if-env-changed=BAY_MARKET_LIB_DIR");
    let [machine, system, endian] =
        ["ARCH", "OS", "ENDIAN"].map(|part| env::var(format!("CARGO_CFG_TARGET_{part}")).unwrap_or_default());
    if !["x86_64", "aarch64"].contains(&machine.as_str()) || system != "linux" || endian != "little" {
        fail(&format!("libbay_market.a is for x86-64 and little-endian AArch64 Linux, not for {machine} {system}"));
    }
    let folder = env::var_os("BAY_MARKET_LIB_DIR").map_or_else(|| current(&machine), PathBuf::from);
    let archive = folder.join("libbay_market.a");
    let Ok(archive) = fs::canonicalize(&archive) else {
        fail(&format!("{} is not there: BAY_MARKET_LIB_DIR is to name the folder with it, as a full path", archive.display()));
    };
    hold_to_version(&archive);
    println!("cargo::rerun-if-changed={}", archive.display());
    println!("cargo::rustc-link-search=native={}", archive.parent().expect("a folder").display());
    println!("cargo::rustc-link-lib=static=bay_market");
}
