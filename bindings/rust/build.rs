//! Links the two proved libraries: from the folder PUIGNEHT_LIB, or from target/staticlib of the repository, or as a
//! puigneht.pc of this version tells, which `make install` makes.
use std::{env, fs, path::Path, path::PathBuf, process};

const LIBRARIES: [&str; 2] = ["puigneht_album", "puigneht"];

fn main() {
    for name in ["PUIGNEHT_LIB", "PKG_CONFIG_PATH"] {
        println!("cargo:rerun-if-env-changed={name}");
    }
    let here = PathBuf::from(env::var_os("CARGO_MANIFEST_DIR").unwrap());
    let folder = found(env::var_os("PUIGNEHT_LIB").map(PathBuf::from), &here.join("../../target/staticlib"), &folders(), &version());
    let folder = folder.unwrap_or_else(|fault| {
        eprintln!("{fault}");
        process::exit(1);
    });
    println!("cargo:rustc-link-search=native={}", folder.display());
    for name in LIBRARIES {
        println!("cargo:rerun-if-changed={}", archive(&folder, name).display());
        println!("cargo:rustc-link-lib=static={name}");
    }
}

fn version() -> String {
    env::var("CARGO_PKG_VERSION").unwrap()
}

fn archive(folder: &Path, name: &str) -> PathBuf {
    folder.join(format!("lib{name}.a"))
}

fn has_both(folder: &Path) -> bool {
    LIBRARIES.iter().all(|name| archive(folder, name).is_file())
}

/// Where puigneht.pc may be.
fn folders() -> Vec<PathBuf> {
    let asked = env::var_os("PKG_CONFIG_PATH").unwrap_or_default();
    let usual = ["/usr/local/lib", "/usr/local/share", "/usr/lib/x86_64-linux-gnu", "/usr/lib64", "/usr/lib", "/usr/share"];
    env::split_paths(&asked).chain(usual.iter().map(|folder| Path::new(folder).join("pkgconfig"))).collect()
}

/// The folder that has both libraries, or what to do.
pub fn found(named: Option<PathBuf>, built: &Path, folders: &[PathBuf], version: &str) -> Result<PathBuf, String> {
    if let Some(folder) = named {
        let fault = || format!("PUIGNEHT_LIB: there are no libpuigneht_album.a and libpuigneht.a in {}", folder.display());
        return if has_both(&folder) { Ok(folder) } else { Err(fault()) };
    }
    if has_both(built) {
        return Ok(built.into());
    }
    let installed = folders.iter().filter_map(|folder| fs::read_to_string(folder.join("puigneht.pc")).ok());
    installed.filter_map(|text| told(&text, version)).find(|folder| has_both(folder)).ok_or_else(|| {
        format!(
            "There are no libpuigneht_album.a and libpuigneht.a in {}, and no puigneht.pc tells of installed ones of version {version}: \
             run `make` in the repository's root (or `make install`), or set PUIGNEHT_LIB to the folder that has them.",
            built.display()
        )
    })
}

/// `libdir` of a puigneht.pc, if that is of this version but for its last number.
pub fn told(text: &str, version: &str) -> Option<PathBuf> {
    let minor = |v: &str| v.trim().rsplit_once('.').map(|(front, _)| front.to_string());
    let line = |start: &str| text.lines().find_map(|line| line.strip_prefix(start));
    if minor(line("Version:")?)? != minor(version)? {
        return None;
    }
    Some(PathBuf::from(line("libdir=")?.replace("${prefix}", line("prefix=").unwrap_or_default())))
}
