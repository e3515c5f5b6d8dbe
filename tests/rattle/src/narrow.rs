//! An index that gets room for long values, unless memory is refused.

use am_index::{Batch, Hint, PLACES_AT_ONCE, PartIndex, RecordSource};
use am_index_list::ListIndex;
use am_record::{Entry, Key, NoMemory, Range, Value};
use std::alloc::Global;

/// An index in which a value of more than 16 bytes has room where one was added, or where room was got. A call that sets
/// one elsewhere ends the test. Calls that want memory for room are counted from 1: those of the refused numbers answer
/// NoMemory.
#[derive(Drop)]
pub(crate) struct Narrow {
    index: ListIndex,
    roomy: Vec<(u32, Key)>,
    refused: Vec<u64>,
    asked: u64,
}

impl Narrow {
    /// No entry, and no call that is counted yet.
    pub(crate) fn new(alloc: Global, refused: Vec<u64>) -> Narrow {
        Narrow {
            index: ListIndex::new(alloc),
            roomy: Vec::new(alloc),
            refused,
            asked: 0,
        }
    }

    // Whether a value of so many bytes has room there.
    fn has_room(&self, part: u32, key: Key, bytes: usize) -> bool {
        bytes <= 16 || self.roomy.contains(&(part, key))
    }

    // Gets such a value room there.
    fn get_room(&mut self, part: u32, key: Key, bytes: usize) -> Result<(), NoMemory> {
        if !self.has_room(part, key, bytes) {
            self.roomy.push((part, key))?;
        }
        Ok(())
    }

    fn get_rooms<S: RecordSource>(&mut self, part: u32, records: &S) -> Result<(), NoMemory> {
        for at in 0..records.len() {
            let (key, value) = records.get(at);
            self.get_room(part, key, value.len())?;
        }
        Ok(())
    }

    // Gives up the room of places where nothing stands.
    fn give_up(&mut self) {
        let index = &self.index;
        self.roomy
            .retain(|place| index.find(place.0, place.1).is_some());
    }
}

impl PartIndex for Narrow {
    ghost entries = { λ n. n.index };

    ghost roomy = { λ n. n.roomy.items };

    fn find(&self, part: u32, key: Key) -> Option<(Value, bool)> {
        self.index.find(part, key)
    }

    fn look(&self, part: u32, key: Key, hint: Hint) -> (Option<(Value, bool)>, Hint) {
        self.index.look(part, key, hint)
    }

    fn hints(&self, places: &[(u32, Key)]) -> [Hint; PLACES_AT_ONCE] {
        self.index.hints(places)
    }

    fn next_from(&self, part: u32, key: Key) -> Option<Entry> {
        self.index.next_from(part, key)
    }

    fn after(&self, part: u32, key: Key) -> Option<Entry> {
        self.index.after(part, key)
    }

    fn read_from(&self, part: u32, key: Key, batch: &mut Batch) {
        self.index.read_from(part, key, batch);
    }

    fn read_on(&self, part: u32, key: Key, batch: &mut Batch) {
        self.index.read_on(part, key, batch);
    }

    fn copy_rows(
        &self,
        part: u32,
        range: Range,
        max: u64,
        rows: &mut Vec<(Key, Value)>,
        hint: Hint,
    ) -> Result<(), NoMemory> {
        self.index.copy_rows(part, range, max, rows, hint)
    }

    fn copy_rows_back(
        &self,
        part: u32,
        range: Range,
        max: u64,
        rows: &mut Vec<(Key, Value)>,
        hint: Hint,
    ) -> Result<(), NoMemory> {
        self.index.copy_rows_back(part, range, max, rows, hint)
    }

    fn next_any(&self, part: u32, key: Key) -> Option<Entry> {
        self.index.next_any(part, key)
    }

    fn next_ghost(&self, part: u32, key: Key) -> Option<Entry> {
        self.index.next_ghost(part, key)
    }

    fn insert(&mut self, entry: Entry, hint: Hint) -> Result<(), NoMemory> {
        self.get_room(entry.part, entry.key, entry.value.len())?;
        let added = self.index.insert(entry, hint);
        self.give_up();
        added
    }

    fn insert_among(&mut self, more: &[Entry]) -> usize {
        let count = self.index.insert_among(more);
        self.give_up();
        count
    }

    fn append_run<S: RecordSource>(&mut self, part: u32, records: &S) -> Result<(), NoMemory> {
        let mut appended = self.get_rooms(part, records);
        if appended.is_ok() {
            appended = self.index.append_run(part, records);
        }
        self.give_up();
        appended
    }

    fn make_room(
        &mut self,
        part: u32,
        key: Key,
        bytes: usize,
        _hint: Hint,
    ) -> Result<(), NoMemory> {
        if self.has_room(part, key, bytes) {
            return Ok(());
        }
        self.asked = self.asked.saturating_add(1);
        if self.refused.contains(&self.asked) {
            return Err(NoMemory);
        }
        self.get_room(part, key, bytes)
    }

    fn set(&mut self, part: u32, key: Key, value: Value, is_ghost: bool, hint: Hint) -> bool {
        let has_room = self.has_room(part, key, value.len());
        prove!(has_room);
        self.index.set(part, key, value, is_ghost, hint)
    }

    fn remove(&mut self, part: u32, key: Key) -> Entry {
        let entry = self.index.remove(part, key);
        self.give_up();
        entry
    }

    fn remove_from(&mut self, part: u32, key: Key, most: usize) -> usize {
        let count = self.index.remove_from(part, key, most);
        self.give_up();
        count
    }
}
