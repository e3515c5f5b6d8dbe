// (no call can meet its contract)
pub fn never(number: u64) -> u64
    requires low { number < 5 }
    requires high { 7 < number }
    ensures { result ≡ 41 }
{
    7
}
