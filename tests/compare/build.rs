fn main() {
    println!("cargo:rerun-if-env-changed=PANEL_LIB");
    if std::env::var_os("CARGO_FEATURE_PANEL").is_none() {
        return;
    }
    let folder = std::env::var("PANEL_LIB").expect("PANEL_LIB names the folder of libpanel.a");
    println!("cargo:rerun-if-changed={folder}/libpanel.a");
    println!("cargo:rustc-link-search=native={folder}");
    println!("cargo:rustc-link-lib=static=panel");
}
