fn main() {
    locate::announce();
}
