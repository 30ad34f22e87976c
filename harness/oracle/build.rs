//! Lays out the original source in Cargo's output folder, each file byte for byte, params.rs with one accessor behind it, with
//! empty files where it includes documentation that isn't handed over with it, and writes the `mod` lines that its missing
//! lib.rs would have.

use std::{env, fs, path::Path, path::PathBuf, process};

/// The modules of the source that the harness uses. The lottery is left out: the source has one of its three files.
const MODULES: [(&str, &[&str]); 2] =
    [("utils", &["errors", "misc", "sample", "types"]), ("centralized_telescope", &["params", "proof", "round", "telescope"])];

/// What is laid behind params.rs, in the same module: the small case is private there.
const SMALL_CASE: &str = "
impl Params {
    /// `param_small_case`, made callable.
    pub fn small_case(completeness: f64, proof_size: f64) -> Params {
        Self::param_small_case(completeness, proof_size)
    }
}
";

/// The pages that the source names in `include_str!`.
const PAGES: [&str; 3] = ["proof.md", "round.md", "params/overview.md"];

fn main() {
    println!("cargo:rerun-if-env-changed=ALBA_SRC");
    let from = source();
    let to = PathBuf::from(env::var_os("OUT_DIR").expect("Cargo sets OUT_DIR")).join("alba");

    let mut lines = String::new();
    for (folder, files) in MODULES {
        lines += &format!("pub mod {folder} {{\n");
        fs::create_dir_all(to.join("src").join(folder)).expect("a folder in OUT_DIR");
        for file in files {
            let place = Path::new("src").join(folder).join(format!("{file}.rs"));
            let (original, laid) = (from.join(&place), to.join(&place));
            println!("cargo:rerun-if-changed={}", original.display());
            let mut text = fs::read(&original).unwrap_or_else(|e| stop(&format!("{}: {e}", original.display())));
            if *file == "params" {
                text.extend_from_slice(SMALL_CASE.as_bytes());
            }
            fs::write(&laid, text).expect("a file in OUT_DIR");
            lines += &format!("    #[path = {laid:?}]\n    pub mod {file};\n");
        }
        lines += "}\n";
    }
    for page in PAGES {
        let page = to.join("docs/rustdoc/centralized_telescope").join(page);
        fs::create_dir_all(page.parent().expect("a page lies in a folder")).expect("a folder in OUT_DIR");
        fs::write(page, "").expect("a file in OUT_DIR");
    }
    fs::write(to.join("modules.rs"), lines).expect("a file in OUT_DIR");
}

/// The folder with the original's `src/`: ALBA_SRC, or ../shared/docs/src seen from the top of the repository.
fn source() -> PathBuf {
    if let Some(named) = env::var_os("ALBA_SRC") {
        let named = PathBuf::from(named);
        if named.is_relative() {
            stop("ALBA_SRC must be a full path");
        }
        return named;
    }
    let here = PathBuf::from(env::var_os("CARGO_MANIFEST_DIR").expect("Cargo sets CARGO_MANIFEST_DIR"));
    let default = here.join("../../../shared/docs/src");
    default
        .canonicalize()
        .unwrap_or_else(|_| stop("the original Rust is not at ../shared/docs/src beside the repository; name its folder in ALBA_SRC"))
}

fn stop(why: &str) -> ! {
    eprintln!("oracle: {why}");
    process::exit(1)
}
