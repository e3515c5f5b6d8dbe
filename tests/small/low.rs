//! A number.
#![tactic(auto)]

ghost use Rattle.std.specs.Prelude.{◌≡◌, ◌<◌};

pub fn number() -> u64
    ensures { result ≡ 41 }
{
    41
}
