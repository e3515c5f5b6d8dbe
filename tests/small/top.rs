//! Prints the number.
#![tactic(auto)]

use low::number;

fn main(rt: HostRuntime) -> std::io::Result<()> {
    println!(rt; "{}", number())
}
