use std::collections::BTreeMap;
use std::thread;

use super::*;

fn pairs(from: u32, to: u32) -> impl Iterator<Item = (String, String)> {
    (from..to).map(|number| (format!("k{number:06}"), number.to_string()))
}

#[test]
fn one_transaction() -> Result<(), Error> {
    let store = Store::open()?;
    let mut tx = store.transaction()?;
    tx.insert("ant", "6")?;
    assert_eq!(tx.insert("ant", "7"), Err(Error::Exists(Key::new("ant")?)));
    assert_eq!(tx.replace("bee", "7"), Err(Error::Absent));
    tx.put("bee", "7")?;
    tx.put("bee", "8")?;
    tx.mark()?;
    assert!(tx.remove("ant")?);
    assert!(!tx.remove("ant")?);
    assert_eq!(tx.get("ant")?, None);
    tx.back()?;
    assert_eq!(tx.back(), Err(Error::NoMark));
    assert_eq!(tx.get("ant")?.as_deref(), Some(&b"6"[..]));
    assert_eq!(tx.commit()?, 1);
    store.transaction()?.put("bee", "9")?;
    let tx = store.transaction()?;
    let rows: Result<Vec<Record>, Error> = tx.scan("", GREATEST).collect();
    assert_eq!(rows?, [Record::new("ant", "6")?, Record::new("bee", "8")?]);
    tx.abort();
    assert_eq!((store.figures().commits, store.figures().active), (1, 0));
    Ok(())
}

#[test]
fn who_is_in_the_way() -> Result<(), Error> {
    let store = Store::open()?;
    let (mut one, mut other) = (store.transaction()?, store.transaction()?);
    one.lock(Mode::Exclusive, "a", "c")?;
    assert_eq!(other.get("b"), Err(Error::Busy(one.number())));
    assert_eq!(other.scan("b", "d").next(), Some(Err(Error::Busy(one.number()))));
    assert_eq!(other.insert("b", "1"), Err(Error::Busy(1)));
    assert_eq!(format!("{}", Error::Busy(1)), "another transaction holds a lock that is in the way: transaction 1");
    drop(one);
    other.insert("b", "1")?;
    other.lock(Mode::Shared, "", GREATEST)?;
    other.commit()?;
    Ok(())
}

#[test]
fn bounds() -> Result<(), Error> {
    let store = Store::open()?;
    assert_eq!(store.merge(1)?, Merge::Idle);
    let mut tx = store.transaction()?;
    assert_eq!(tx.insert([0; 33], ""), Err(Error::BadKey(0)));
    assert_eq!(tx.insert([0; 32], [0; 65]), Err(Error::BadValue(0)));
    assert_eq!(Key::new([0; 33]), Err(Error::BadKey(0)));
    tx.insert([0; 32], [255; 64])?;
    tx.insert("", "")?;
    assert_eq!(tx.get("")?.map(|value| value.len()), Some(0));
    assert_eq!(tx.get([0; 32])?.as_deref(), Some(&[255; 64][..]));
    assert_eq!(tx.scan("b", "a").next(), Some(Err(Error::BadRange)));
    assert_eq!(tx.lock(Mode::Shared, "b", "a"), Err(Error::BadRange));
    assert_eq!((store.merge(0), store.merge(65)), (Err(Error::BadLimit), Err(Error::BadLimit)));
    let many: Result<Vec<Transaction>, Error> = (0..63).map(|_| store.transaction()).collect();
    assert_eq!(store.transaction().err(), Some(Error::TooManyTransactions));
    drop(many);
    for number in 0..253 {
        tx.get([1, number])?;
    }
    tx.get("another")?;
    assert_eq!(tx.get("one more"), Err(Error::TooManyLocks));
    Ok(())
}

#[test]
fn loads_in_each_form() -> Result<(), Error> {
    let store = Store::open()?;
    let mut tx = store.transaction()?;
    assert_eq!(tx.load(pairs(0, 200_000).collect::<Vec<_>>().into_iter().rev()), Ok(200_000));
    assert_eq!(tx.load(Vec::<(String, String)>::new()), Ok(0));
    let twice = tx.load([("b", "1"), ("a", "1"), ("b", "2")]).unwrap_err();
    assert_eq!(twice, LoadError { error: Error::Twice(Key::new("b")?), loaded: 0 });
    let known = tx.load(pairs(199_000, 300_000)).unwrap_err();
    assert_eq!(known, LoadError { error: Error::Exists(Key::new("k199000")?), loaded: 0 });
    assert_eq!(tx.load_text(b"a\t1\nb\t\n\t2"), Ok(3));
    assert_eq!(tx.load_text(b"c\t1\nd").unwrap_err().error, Error::BadLine(2));
    assert_eq!(tx.load_rising(&[Record::new("c", "1")?, Record::new("c", "2")?]), Err(Error::NotRising));
    tx.load_rising(&[Record::new("c", "1")?, Record::new("d", "2")?])?;

    #[repr(C)]
    struct Reading {
        value: u64,
        key: [u8; 4],
    }
    let readings: Vec<Reading> = (0..1000).map(|n: u32| Reading { value: n.into(), key: (1000 - n).to_be_bytes() }).collect();
    let layout = Layout::new(8, 4, 0, 8);
    // SAFETY: neither the key nor the value is padding.
    assert_eq!(unsafe { tx.load_structs(&readings, layout) }, Ok(1000));
    // SAFETY: the key doesn't lie within its struct, and isn't read.
    assert_eq!(unsafe { tx.load_structs(&readings, Layout::new(13, 4, 0, 8)) }.unwrap_err().error, Error::BadKey(0));
    assert_eq!(tx.get(7u32.to_be_bytes())?.as_deref(), Some(&993u64.to_ne_bytes()[..]));
    assert_eq!(tx.scan("k", "l").filter(|row| row.is_ok()).count(), 200_000);
    tx.commit()?;
    assert!(matches!(store.merge(64)?, Merge::Moved(64)));
    // Four runs of the first load, and one of each later one.
    assert_eq!(store.figures().runs, 7);
    Ok(())
}

#[test]
fn what_nobody_reads() -> Result<(), Error> {
    let store = Store::open()?;
    for run in 0..300 {
        let mut tx = store.transaction()?;
        tx.load((0..8).map(|place| (format!("{place}{run:03}"), "v")))?;
        tx.commit()?;
    }
    // Commits merge where runs are many.
    assert!((64..200).contains(&store.figures().runs));
    assert!(store.tidy()?);
    while store.tidy()? {}
    assert_eq!((store.figures().runs, store.figures().in_final), (0, 2400));
    Ok(())
}

#[test]
fn beside_a_map() -> Result<(), Error> {
    let store = Store::open()?;
    let mut map = BTreeMap::new();
    let mut seed = 7u64;
    for _ in 0..2000 {
        let mut tx = store.transaction()?;
        let mut draft = map.clone();
        for _ in 0..8 {
            seed = seed.wrapping_mul(6364136223846793005).wrapping_add(1442695040888963407);
            let (key, value) = ([(seed >> 33) as u8 % 64], (seed >> 40).to_string());
            match (seed >> 60) % 4 {
                0 => {
                    let is_new = !draft.contains_key(&key);
                    assert_eq!(tx.insert(key, &value), if is_new { Ok(()) } else { Err(Error::Exists(Key::new(key)?)) });
                    draft.entry(key).or_insert(value);
                }
                1 => assert_eq!(tx.remove(key)?, draft.remove(&key).is_some()),
                2 => {
                    tx.put(key, &value)?;
                    draft.insert(key, value);
                }
                _ => assert_eq!(tx.get(key)?.as_deref(), draft.get(&key).map(String::as_bytes)),
            }
        }
        let rows: Result<Vec<Record>, Error> = tx.scan("", GREATEST).collect();
        let wanted: Result<Vec<Record>, Error> = draft.iter().map(|(key, value)| Record::new(key, value)).collect();
        assert_eq!(rows?, wanted?);
        if seed >> 63 == 0 {
            tx.commit()?;
            map = draft;
        }
        store.merge(16)?;
    }
    Ok(())
}

#[test]
fn back_and_away() -> Result<(), Error> {
    let store = Store::open()?;
    let mut tx = store.transaction()?;
    assert_eq!(tx.load(pairs(0, 3000)), Ok(3000));
    tx.set("k000007", "")?;
    tx.set("k003000", "3000")?;
    assert_eq!(tx.update([("k000009", "9"), ("k000008", "8"), ("k003000", "3000")]), Ok(3));
    assert_eq!(tx.update(Vec::<(String, String)>::new()), Ok(0));
    assert_eq!(tx.update([("b", "1"), ("b", "2")]).unwrap_err().error, Error::Twice(Key::new("b")?));
    let keys: Result<Vec<Key>, Error> = tx.scan_back("", GREATEST).map(|row| row.map(|record| record.key)).collect();
    let wanted: Result<Vec<Key>, Error> = (0..=3000).rev().map(|number| Key::new(format!("k{number:06}"))).collect();
    assert_eq!(keys?, wanted?);
    assert_eq!(tx.scan_back("b", "a").next(), Some(Err(Error::BadRange)));
    assert_eq!(tx.remove_range("b", "a", 1), Err(Error::BadRange));
    assert_eq!(tx.remove_range("", GREATEST, 0), Ok(0));
    assert_eq!(tx.remove_range("k000001", "k002999", 1001), Ok(1001));
    assert_eq!(tx.remove_range("k000001", "k002999", u64::MAX), Ok(1998));
    assert_eq!(tx.remove_range("k000001", "k002999", u64::MAX), Ok(0));
    let left: Result<Vec<Record>, Error> = tx.scan("", GREATEST).collect();
    assert_eq!(left?, [Record::new("k000000", "0")?, Record::new("k003000", "3000")?]);
    Ok(())
}

#[test]
fn from_thread_to_thread() -> Result<(), Error> {
    let mut store = Store::open()?;
    for number in 0..8u8 {
        store = thread::spawn(move || -> Result<Store, Error> {
            let mut tx = store.transaction()?;
            tx.insert([number], "1")?;
            tx.commit()?;
            Ok(store)
        })
        .join()
        .expect("the thread ends")?;
    }
    assert_eq!((store.figures().entries, store.figures().commits), (8, 8));
    assert_eq!(version(), env!("CARGO_PKG_VERSION"));
    Ok(())
}
