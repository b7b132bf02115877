fn main() {
    locate::link_ours("codec_abi_c");
}
