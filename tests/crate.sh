#!/usr/bin/env bash
# The Rust crate outside this tree: it says what to do where the archive is missing, and links where it is named.
# Takes the folder with the library.
set -euo pipefail
cd -- "$(dirname -- "$(readlink -f -- "$0")")/.."

libraries=$(readlink -f -- "$1")
work=$(mktemp -d)
trap 'rm -rf "$work"' EXIT
mkdir -p "$work/far/away/user/src"
cp -r rust/bay_market "$work/far/away/bay_market"
# what the crate takes from its workspace
version=$(sed -n 's/^version = //p' rust/Cargo.toml)
sed -i -e "s/^version.workspace = true/version = $version/" -e 's/^edition.workspace = true/edition = "2024"/' \
    -e '/\.workspace = true/d' "$work/far/away/bay_market/Cargo.toml"
cat >"$work/far/away/user/Cargo.toml" <<'END'
[package]
name = "user"
version = "0.1.0"
edition = "2024"

[dependencies]
bay_market = { path = "../bay_market" }
END
cat >"$work/far/away/user/src/main.rs" <<'END'
fn main() -> Result<(), Box<dyn std::error::Error>> {
    let market = bay_market::Market::read(&std::fs::read(std::env::args().nth(1).ok_or("FILE")?)?)?;
    println!("cut {}", market.clear(bay_market::Rule::Median)?.cut);
    println!("sheet of {} bytes", market.to_sheet()?.len());
    println!("cut {} of a text", bay_market::Market::from_csv(b"5\r\n1\r\n")?.clear(bay_market::Rule::Median)?.cut);
    Ok(())
}
END

unset BAY_MARKET_LIB_DIR
run() {
    cargo run --offline --quiet --manifest-path "$work/far/away/user/Cargo.toml" -- "$PWD/examples/$1.sheet"
}
if run case_e >"$work/out" 2>"$work/err"; then
    echo 'linked without an archive' >&2
    exit 1
fi
grep -q 'set BAY_MARKET_LIB_DIR to the folder with libbay_market.a' "$work/err"
if BAY_MARKET_LIB_DIR=$work run case_e >"$work/out" 2>"$work/err"; then
    echo 'linked without an archive' >&2
    exit 1
fi
grep -q 'libbay_market.a is not there' "$work/err"
# an archive of other versions, and one of none
mkdir "$work/other" "$work/old"
name=bay_market_$(tr -d '"' <<<"${version//./_}")
objcopy --redefine-sym "$name=bay_market_0_9_8" --add-symbol bay_market_0_9_9=.text:0,global,function \
    "$libraries/libbay_market.a" "$work/other/libbay_market.a"
objcopy --redefine-sym "$name=another" "$libraries/libbay_market.a" "$work/old/libbay_market.a"
while read -r folder served; do
    if BAY_MARKET_LIB_DIR=$work/$folder run case_e >"$work/out" 2>"$work/err"; then
        echo 'linked with an archive of another version' >&2
        exit 1
    fi
    grep -qF "$work/$folder/libbay_market.a is of $served, this crate is of ${version//\"/}" "$work/err"
done <<'END'
other 0.9.8 and 0.9.9
old a version before 1.0.0
END

# the build script chooses by the machine that is compiled for
CARGO_MANIFEST_DIR=$PWD/rust/bay_market CARGO_PKG_VERSION=${version//\"/} rustc --edition 2024 rust/bay_market/build.rs -o "$work/build"
for machine in x86_64 aarch64; do
    CARGO_CFG_TARGET_ARCH=$machine CARGO_CFG_TARGET_OS=linux CARGO_CFG_TARGET_ENDIAN=little "$work/build" >"$work/out"
    grep -qx "cargo::rustc-link-search=native=$(scripts/current $machine)" "$work/out"
done
if CARGO_CFG_TARGET_ARCH=riscv64 CARGO_CFG_TARGET_OS=linux CARGO_CFG_TARGET_ENDIAN=little "$work/build" >"$work/out"; then
    echo 'the build script takes riscv64' >&2
    exit 1
fi
grep -q 'libbay_market.a is for x86-64 and little-endian AArch64 Linux, not for riscv64 linux' "$work/out"

export BAY_MARKET_LIB_DIR=$libraries
[ "$(run case_e)" = $'cut 6\nsheet of 38 bytes\ncut 5 of a text' ]
if run refused >"$work/out" 2>"$work/err"; then
    echo 'cleared what is to be refused' >&2
    exit 1
fi
grep -q 'AskOutOfRange' "$work/err"
echo 'the crate outside this tree: as expected'
