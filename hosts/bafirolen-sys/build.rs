fn main() {
    archive::link("bafirolen_c");
}
