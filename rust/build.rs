//! Links the static library `ups` from the folder in `UPS_LIB_DIR`, or from that of this
//! repository.

use std::env;
use std::path::PathBuf;
use std::process;

fn main() {
    let folder = match env::var_os("UPS_LIB_DIR") {
        Some(folder) => PathBuf::from(folder),
        None => {
            let package = env::var_os("CARGO_MANIFEST_DIR").expect("set by cargo");
            PathBuf::from(package).join("../target/staticlib")
        }
    };
    let library = folder.join("libups.a");
    println!("cargo:rerun-if-env-changed=UPS_LIB_DIR");
    println!("cargo:rerun-if-changed={}", library.display());
    if !library.is_file() {
        eprintln!("there is no static library {}", library.display());
        eprintln!("`make lib` writes it; UPS_LIB_DIR can name its folder, by an absolute path");
        process::exit(1);
    }
    println!("cargo:rustc-link-search=native={}", folder.display());
    println!("cargo:rustc-link-lib=static=ups");
}
