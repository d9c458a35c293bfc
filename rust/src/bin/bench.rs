//! The benchmark without peers.

fn main() {
    bezowik::measure::forward_table(&[]);
    println!();
    bezowik::measure::backward_table();
}
