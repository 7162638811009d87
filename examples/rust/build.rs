//! Links the archive of the folder that the variable SOIZKADUR_FOLDER names, where libsoizkadur.a is.

fn main() {
    println!("cargo:rerun-if-env-changed=SOIZKADUR_FOLDER");
    let folder = std::env::var("SOIZKADUR_FOLDER").expect("SOIZKADUR_FOLDER is the folder of libsoizkadur.a");
    println!("cargo:rustc-link-search=native={folder}");
    println!("cargo:rerun-if-changed={folder}/libsoizkadur.a");
}
