fn main() {
    locate::announce();
    locate::link_ours("station_abi");
}
