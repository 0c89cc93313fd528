//! Links the static libraries `libuniversal.a` and `libuniversal_shared.a` of the folder that `UNIVERSAL_LIB` names, as
//! `bindings/install` makes one; or of `lib`, which a released crate has; or of `../out`, which `bindings/libraries` makes.
use std::env;
use std::path::PathBuf;

fn main() {
    println!("cargo:rerun-if-env-changed=UNIVERSAL_LIB");
    let folder = match env::var_os("UNIVERSAL_LIB") {
        Some(folder) => PathBuf::from(folder),
        None => {
            let here = PathBuf::from(env::var_os("CARGO_MANIFEST_DIR").expect("cargo sets it"));
            [here.join("lib"), here.join("../out")].into_iter().find(|folder| folder.exists()).unwrap_or_default()
        }
    };
    println!("cargo:rustc-link-search=native={}", folder.display());
    for name in ["universal", "universal_shared"] {
        let library = folder.join(format!("lib{name}.a"));
        println!("cargo:rerun-if-changed={}", library.display());
        assert!(library.exists(), "{} isn't there: UNIVERSAL_LIB names its folder", library.display());
        println!("cargo:rustc-link-lib=static={name}");
    }
}
