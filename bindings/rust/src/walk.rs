use crate::entries;
use crate::{Arena, Refusal};

/// Each chunk's bytes that are given out, newest chunk first. A chunk with none gives an empty part.
#[derive(Clone, Debug)]
pub struct Walk<'a> {
    arena: &'a Arena<'a>,
    index: usize,
}

impl<'a> Walk<'a> {
    pub(crate) fn new(arena: &'a Arena<'a>) -> Result<Walk<'a>, Refusal> {
        Refusal::heard(entries::walk(arena.record(), arena.region(), 0).refusal)?;
        Ok(Walk { arena, index: 0 })
    }
}

impl<'a> Iterator for Walk<'a> {
    type Item = &'a [u8];

    fn next(&mut self) -> Option<&'a [u8]> {
        let region = self.arena.region();
        let step = entries::walk(self.arena.record(), region, self.index);
        if step.left == 0 {
            return None;
        }
        self.index += 1;
        Some(&region[step.offset..step.offset + step.length])
    }
}
