//! What the proved code costs beside the reference and the plain C floor: ticks, lines and characters, both bench
//! programs on whole inputs, the dearest single calls, and trials. Ends with 1 where a trial takes too long.

use compare::program;
use compare::speed::{floor, programs, single, steady, trials};
use std::process::exit;

fn main() {
    program::make_folder();
    let rows = steady::rows();
    let floor = floor::rows();
    steady::print(rows.iter().chain(floor.iter().flatten()));
    if floor.is_none() {
        println!("C floor: not found beside the repository or in $FLOOR, or not compiled; its rows are left out.");
    }
    println!();
    programs::print();
    println!();
    single::print(&rows);
    println!();
    if !trials::print() {
        exit(1);
    }
}
