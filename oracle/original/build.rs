//! Puts the test copy together in OUT_DIR/published: the files of CANADENSIS_SRC/src as they are, then each file of `added/`, behind the end of the published
//! file of its name where there is one. Of lib.rs only the head is left out, its inner attributes and doc lines, since an included file can have none.
use std::path::{Path, PathBuf};
use std::{env, fs};

fn main() {
    println!("cargo:rerun-if-env-changed=CANADENSIS_SRC");
    let Some(named) = env::var_os("CANADENSIS_SRC") else {
        panic!("CANADENSIS_SRC does not name the folder of the unpacked canadensis_can 0.6.0");
    };
    let published = PathBuf::from(named).join("src");
    let added = PathBuf::from(env::var("CARGO_MANIFEST_DIR").unwrap()).join("../original/added");
    let copy = PathBuf::from(env::var("OUT_DIR").unwrap()).join("published");
    // Nothing of an earlier copy stays.
    let _ = fs::remove_dir_all(&copy);
    put(&published, &copy);
    let root = copy.join("lib.rs");
    fs::write(&root, without_head(&fs::read_to_string(&root).unwrap())).unwrap();
    put(&added, &copy);
}

/// Each file of a folder, to its place in another: behind what lies there.
fn put(from: &Path, to: &Path) {
    println!("cargo:rerun-if-changed={}", from.display());
    fs::create_dir_all(to).unwrap();
    for entry in fs::read_dir(from).unwrap_or_else(|why| panic!("{}: {why}", from.display())) {
        let (from, to) = (entry.as_ref().unwrap().path(), to.join(entry.unwrap().file_name()));
        if from.is_dir() {
            put(&from, &to);
        } else {
            let before = fs::read_to_string(&to).unwrap_or_default();
            fs::write(&to, before + &fs::read_to_string(&from).unwrap()).unwrap();
        }
    }
}

fn without_head(root: &str) -> String {
    let inner = |line: &str| line.is_empty() || line.starts_with("#![") || line.starts_with("//!");
    root.lines().skip_while(|line| inner(line)).map(|line| format!("{line}\n")).collect()
}
