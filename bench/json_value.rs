// Reads a JSON text to a value with serde_json, and does no more: for bench/world_files.py to compare with.
use std::io::Read;

fn main() {
    let path = std::env::args().nth(1).expect("a path");
    let mut bytes = Vec::new();
    std::fs::File::open(path).expect("a file").read_to_end(&mut bytes).expect("its bytes");
    match serde_json::from_slice::<serde_json::Value>(&bytes) {
        Ok(_) => println!("read"),
        Err(_) => println!("refused"),
    }
}
