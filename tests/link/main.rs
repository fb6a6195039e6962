//! The program of the replay in Rust (link.rs), which is compiled once and linked with the library and with the shim.

fn main() {
    replay::main()
}
