//! The lines of a block, as operations.

use am_record::{Key, NoMemory, Op, Records, Reply, Value};
use am_replica::Digest;
use am_replica_entries::{Block, Told};
use am_replica_lines::{BlockFault, read_block};
use std::alloc::Global;
use std::test::Fail;

// Of no answers, nines.
#[derive(Drop)]
struct Nines;

impl Digest for Nines {
    ghost use Rattle.std.specs.Prelude.{replicate};

    type Running = ();

    ghost digest_of = { λ _. replicate 32 9 };

    ghost holds = { λ _ _. Unit {0} };

    fn digest(&self, _replies: &[Reply]) -> Result<[u8; 32], NoMemory> {
        Ok([9; 32])
    }

    fn begin(&self) {}

    fn add(&self, _nothing: &mut (), _reply: &Reply) -> Result<(), NoMemory> {
        Ok(())
    }

    fn sum(&self, _nothing: &()) -> [u8; 32] {
        [9; 32]
    }
}

fn entry(alloc: Global, lines: &[u8], told: Option<Told>) -> Result<Block, Fail> {
    Ok(Block {
        lines: Vec::from_slice(alloc, lines)?,
        told,
    })
}

fn key(text: &[u8]) -> Key {
    Key::new(text).unwrap()
}

#[test]
fn lines_are_operations(rt: HostRuntime) -> Result<(), Fail> {
    let alloc = rt.alloc();
    let told = Told {
        lines: 3,
        digest: [7; 32],
    };
    let lines = b"GET a\nSTAGE b=1 c=2\nMARK\r\nLOAD d=3\nBACK\n";
    let block = read_block(alloc, &Nines, &entry(alloc, lines, Some(told))?).unwrap();
    let pairs = vec![in alloc;
        (key(b"b"), Value::new(b"1").unwrap()),
        (key(b"c"), Value::new(b"2").unwrap()),
        (key(b"d"), Value::new(b"3").unwrap()),
    ]?;
    let wanted = vec![in alloc;
        Op::Get(key(b"a")),
        Op::Mark,
        Op::Load(Records::new(pairs)),
        Op::Back,
    ]?;
    assert!(rt; block.ops == wanted);
    // Of the first three lines one has records wait.
    assert_eq!(rt; block.told, 2);
    assert!(rt; block.digest == [7; 32]);
    let untold = read_block(alloc, &Nines, &entry(alloc, b"GET a\nGET b", None)?).unwrap();
    assert_eq!(rt; untold.ops.len(), 2);
    assert_eq!(rt; untold.told, 0);
    assert!(rt; untold.digest == [9; 32]);
    assert_eq!(rt;
        read_block(alloc, &Nines, &entry(alloc, b"", None)?)
            .unwrap()
            .ops
            .len(),
        0
    );
    Ok(())
}

#[test]
fn other_lines_are_none_of_a_block(rt: HostRuntime) -> Result<(), Fail> {
    let alloc = rt.alloc();
    for lines in [
        b"GET a\nCOMMIT\n".as_slice(),
        b"BEGIN\n",
        b"GET\n",
        b"GET a\n\n",
        b"MERGE 1\n",
        b"QUIT\n",
    ] {
        let read = read_block(alloc, &Nines, &entry(alloc, lines, None)?);
        assert!(rt; matches!(read, Err(BlockFault::OtherLine)));
    }
    let read = read_block(alloc, &Nines, &entry(alloc, b"STAGE a=1\nGET a\n", None)?);
    assert!(rt; matches!(read, Err(BlockFault::StillStaged)));
    Ok(())
}
