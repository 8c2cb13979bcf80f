//! One run of any of the interpreters, with what its calls are lent.

use crate::{Calls, Record, Refusal, Told, MOST_ROOM, MOST_WORDS};

pub struct Run<C: Calls> {
    table: C::Table,
    pub record: Record,
    pub store: Vec<u32>,
    pub out: [u8; MOST_ROOM],
}

impl<C: Calls> Run<C> {
    /// Store and output are as long as any table asks.
    pub fn open(bytes: &[u8]) -> Result<Run<C>, Refusal> {
        let table = C::read(bytes)?;
        let mut record = Record::default();
        let mut store = vec![0; MOST_WORDS];
        C::open(&mut record, &table, &mut store)?;
        Ok(Run { table, record, store, out: [0; MOST_ROOM] })
    }

    pub fn row(&mut self, row: &[u32]) -> Told {
        C::row(&mut self.record, &self.table, &mut self.store, row, &mut self.out)
    }

    /// A row call with less output lent than any table asks.
    pub fn narrow_row(&mut self, row: &[u32]) -> Told {
        C::row(&mut self.record, &self.table, &mut self.store, row, &mut self.out[..9])
    }

    pub fn close(&mut self) -> Told {
        C::close(&mut self.record, &self.table)
    }

    pub fn drain(&mut self) -> Told {
        C::drain(&mut self.record, &self.table, &mut self.store, &mut self.out)
    }
}
