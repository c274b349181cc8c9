mod copy;

fn main() {
    println!("cargo:rerun-if-changed=copy.rs");
    copy::copy_original(None);
}
