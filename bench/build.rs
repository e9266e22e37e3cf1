// Links the proved archive that c/library.sh writes and, where `before.sh` made it, that of an earlier commit.
fn main() {
    let target = format!("{}/../target", std::env::var("CARGO_MANIFEST_DIR").unwrap());
    link(&format!("{target}/staticlib"), "puvolamie_c");
    println!("cargo:rustc-check-cfg=cfg(before, six_counts_before, no_width_before)");
    println!("cargo:rerun-if-env-changed=BEFORE");
    if let Ok(commit) = std::env::var("BEFORE") {
        let folder = format!("{target}/before/{commit}");
        println!("cargo:rustc-cfg=before");
        link(&folder, "before");
        let header = format!("{folder}/tree/c/puvolamie.h");
        println!("cargo:rerun-if-changed={header}");
        let header = std::fs::read_to_string(header).unwrap();
        if !counts_have_tail(&header) {
            println!("cargo:rustc-cfg=six_counts_before");
        }
        if !numbers_have_width(&header) {
            println!("cargo:rustc-cfg=no_width_before");
        }
    }
}

// Have the counts of a header the field `tail`, and so eight numbers?
fn counts_have_tail(header: &str) -> bool {
    let (before, _) = header.split_once("} pv_counts;").unwrap();
    let (_, counts) = before.rsplit_once("typedef struct {").unwrap();
    counts.contains("uint32_t tail;")
}

// Has the number writer of a header the parameter `width`?
fn numbers_have_width(header: &str) -> bool {
    let (_, behind) = header.split_once("pv_push_u64(").unwrap();
    let (parameters, _) = behind.split_once(");").unwrap();
    parameters.contains("uint32_t width")
}

fn link(folder: &str, name: &str) {
    println!("cargo:rerun-if-changed={folder}/lib{name}.a");
    println!("cargo:rustc-link-search=native={folder}");
    println!("cargo:rustc-link-lib=static={name}");
}
