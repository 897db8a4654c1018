fn main() {
    archive::link("leaves_c");
}
