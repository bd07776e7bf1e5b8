//! Assembles naga's sources beside our stand-ins in OUT_DIR, so that their
//! `mod` lines resolve. naga's files are copied there as they are.

use std::path::{Path, PathBuf};
use std::{env, fs};

/// Where naga's sources lie, seen from the folder that the repository is in;
/// NAGA_SRC overrides it.
const DEFAULT_SOURCES: &str = "shared/docs/src/src";

const NAGA_FILES: [&str; 9] = [
    "arena/handle.rs",
    "arena/mod.rs",
    "arena/unique_arena.rs",
    "ir/mod.rs",
    "proc/layouter.rs",
    "proc/type_methods.rs",
    "valid/immediates.rs",
    "valid/mod.rs",
    "valid/type.rs",
];

const STAND_INS: [&str; 15] = [
    "arena/handle_set.rs",
    "arena/handlevec.rs",
    "arena/range.rs",
    "diagnostic_filter.rs",
    "ir/block.rs",
    "non_max_u32.rs",
    "proc/mod.rs",
    "root.rs",
    "span.rs",
    "valid/analyzer.rs",
    "valid/compose.rs",
    "valid/expression.rs",
    "valid/function.rs",
    "valid/handles.rs",
    "valid/interface.rs",
];

fn main() {
    let here = PathBuf::from(env::var_os("CARGO_MANIFEST_DIR").unwrap());
    let tree = PathBuf::from(env::var_os("OUT_DIR").unwrap()).join("naga");
    println!("cargo::rerun-if-env-changed=NAGA_SRC");
    let sources = match env::var_os("NAGA_SRC") {
        Some(path) => PathBuf::from(path),
        None => here.ancestors().nth(3).unwrap().join(DEFAULT_SOURCES),
    };
    if !has_naga(&sources) {
        return;
    }
    for file in NAGA_FILES {
        copy(&sources, &tree, file);
    }
    let stand_ins = here.join("../stand_ins/naga");
    for file in STAND_INS {
        copy(&stand_ins, &tree, file);
    }
    copy(&stand_ins, &tree, "valid/handles/bridge.rs");
    fs::write(tree.join("widths.rs"), widths(&sources)).unwrap();
}

/// Says what is wanted where a file of naga is missing; cargo then ends with an
/// error.
fn has_naga(sources: &Path) -> bool {
    let mut files = NAGA_FILES.iter().chain(&["lib.rs"]);
    let Some(missing) = files.find(|file| !sources.join(file).is_file()) else {
        return true;
    };
    let folder = sources.display();
    println!("cargo::error=no {missing} in {folder}: put the folder src of naga 30.0.1 there, or set NAGA_SRC to it");
    false
}

fn copy(from: &Path, to: &Path, file: &str) {
    let source = from.join(file);
    println!("cargo::rerun-if-changed={}", source.display());
    let text = fs::read(&source).unwrap_or_else(|e| panic!("{}: {e}", source.display()));
    let target = to.join(file);
    fs::create_dir_all(target.parent().unwrap()).unwrap();
    fs::write(target, text).unwrap();
}

/// lib.rs cannot be the root here, but its constants are taken from it.
fn widths(sources: &Path) -> String {
    let source = sources.join("lib.rs");
    println!("cargo::rerun-if-changed={}", source.display());
    let text = fs::read_to_string(source).unwrap();
    let constants = text.lines().filter(|line| line.starts_with("pub const "));
    constants.map(|line| format!("{line}\n")).collect()
}
