//! Calls that take a list of records and an output, and nothing else.

use crate::edges::{counts, list_lengths, long_lists, rooms};
use host::books;
use host::both::{same_output, Start, MOST};
use host::engine::{null, null_out, BookAnswer};
use host::tally::{Group, Tally};

pub struct List {
    pub name: &'static str,
    pub engine: fn(&[u8], &mut [u8]) -> BookAnswer,
    pub other: fn(&[u8], &mut [u8]) -> books::BookAnswer,
    /// Bytes of a record handed in, and of a record written.
    pub from: usize,
    pub to: usize,
}

impl List {
    /// The room that the whole records need.
    pub fn room(&self, records: &[u8]) -> usize {
        records.len() / self.from * self.to
    }

    /// Compares with the independent implementation, and a null output with one that
    /// has no room.
    pub fn compare(&self, group: &mut Group, records: &[u8], room: usize) {
        if group.turn() {
            let other = |out: &mut [u8]| (self.other)(records, out).into();
            self.same(group, records, room, other);
            if room == 0 {
                let null = |_: &mut [u8]| (self.engine)(records, null_out());
                self.same(group, records, room, null);
            }
        }
    }

    /// Compares with outputs of every sort.
    pub fn compare_rooms(&self, group: &mut Group, records: &[u8]) {
        for room in rooms(self.room(records)) {
            self.compare(group, records, room);
        }
    }

    /// Wants the list accepted and these bytes written, whatever the independent
    /// implementation does.
    pub fn want(&self, group: &mut Group, records: &[u8], wanted: &[u8]) {
        if group.turn() {
            self.same(group, records, wanted.len(), |out| {
                out.copy_from_slice(wanted);
                BookAnswer {
                    refusal: 0,
                    index: records.len() / self.from,
                    written: wanted.len(),
                }
            });
        }
    }

    /// Wants the list refused and the output as it was.
    pub fn want_refused(
        &self,
        group: &mut Group,
        records: &[u8],
        room: usize,
        (refusal, index): (u32, usize),
    ) {
        if group.turn() {
            self.same(group, records, room, |_| BookAnswer {
                refusal,
                index,
                written: 0,
            });
        }
    }

    /// What the engine writes for an accepted list.
    pub fn made(&self, records: &[u8]) -> Vec<u8> {
        let mut out = vec![0; self.room(records)];
        (self.engine)(records, &mut out);
        out
    }

    /// The groups that every such call has; of these bytes each start of whole
    /// records is accepted, up to the most.
    pub fn groups(&self, tally: &mut Tally, bytes: &[u8]) {
        let name = |about| format!("{} ({about})", self.name);
        let most = MOST * self.from;
        tally.group(&name("numbers of records and outputs"), |group| {
            for count in counts() {
                self.compare_rooms(group, &bytes[..count * self.from]);
            }
        });
        tally.group(&name("lengths"), |group| {
            for length in list_lengths(self.from) {
                self.compare_rooms(group, &bytes[..length]);
            }
            for room in [0, 1] {
                self.compare(group, null(), room);
            }
            long_lists(self.from, |records| {
                for room in [0, 1 << 15] {
                    self.compare(group, records, room);
                }
            });
        });
        tally.group(&name("wrong lengths and short outputs at once"), |group| {
            let lengths = [
                (1, most + 1),
                (1, most + self.from),
                (2, 1),
                (2, self.from + 1),
                (2, most - 1),
                (12, self.from),
                (12, most),
            ];
            for (refusal, length) in lengths {
                let records = &bytes[..length];
                for room in rooms(self.room(records)) {
                    if refusal != 12 || room < self.room(records) {
                        self.want_refused(group, records, room, (refusal, 0));
                    }
                }
            }
        });
    }

    fn same(
        &self,
        group: &mut Group,
        records: &[u8],
        room: usize,
        wanted: impl FnOnce(&mut [u8]) -> BookAnswer,
    ) {
        same_output(
            group,
            self.name,
            &[("records", &Start(records)), ("room", &room)],
            room,
            |out| (self.engine)(records, out),
            wanted,
        );
    }
}
