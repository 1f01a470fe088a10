// Links the archives that `rt lib` writes in crates/booth and crates/stage into the comparison. The programs of src/bin link none.
fn main() {
    let root = std::env::var("CARGO_MANIFEST_DIR").expect("cargo sets it");
    for archive in ["stage", "booth"] {
        let path = format!("{root}/../crates/{archive}/out/lib{archive}.a");
        println!("cargo:rustc-link-arg-bin=compare={path}");
        println!("cargo:rerun-if-changed={path}");
    }
}
