//! Reading declarations: items, flushes and groups.

use crate::Result;
use std::collections::HashMap;

/// A flush: the item that makes it, and the item that it waits for.
#[derive(Clone, Copy)]
pub struct Flush {
    pub item: usize,
    pub target: usize,
}

/// The items of a declaration by number, its flushes in the order of the text, and the group of each item.
pub struct Declaration<'a> {
    pub names: Vec<&'a [u8]>,
    pub flushes: Vec<Flush>,
    pub group_of: Vec<usize>,
    pub groups: usize,
}

impl<'a> Declaration<'a> {
    pub fn parse(text: &'a [u8]) -> Result<Self> {
        let mut reader = Reader::default();
        for (at, line) in text.split(|byte| *byte == b'\n').enumerate() {
            reader
                .read_line(line)
                .map_err(|error| format!("line {}: {error}", at + 1))?;
        }
        Ok(reader.finish())
    }
}

#[derive(Default)]
struct Reader<'a> {
    items: HashMap<&'a [u8], usize>,
    names: Vec<&'a [u8]>,
    flushes: Vec<Flush>,
    /// Of each item the `ordered` line that names it.
    ordered_by: Vec<Option<usize>>,
    ordered_lines: usize,
}

impl<'a> Reader<'a> {
    fn read_line(&mut self, line: &'a [u8]) -> Result<()> {
        let content = line.split(|byte| *byte == b'#').next().unwrap_or_default();
        let mut words = content
            .split(u8::is_ascii_whitespace)
            .filter(|word| !word.is_empty());
        match words.next() {
            None => Ok(()),
            Some(b"item") => self.read_item(words),
            Some(b"flush") => self.read_flushes(words),
            Some(b"ordered") => self.read_ordered(words),
            Some(_) => Err("no such directive".into()),
        }
    }

    fn read_item(&mut self, mut words: impl Iterator<Item = &'a [u8]>) -> Result<()> {
        let name = words.next().ok_or("a name is missing")?;
        if words.next().is_some() {
            return Err("a word too many".into());
        }
        if self.items.insert(name, self.names.len()).is_some() {
            return Err("the item is already declared".into());
        }
        self.names.push(name);
        self.ordered_by.push(None);
        Ok(())
    }

    fn read_flushes(&mut self, mut words: impl Iterator<Item = &'a [u8]>) -> Result<()> {
        let item = self.find(words.next().ok_or("a name is missing")?)?;
        let before = self.flushes.len();
        for word in words {
            let target = self.find(word)?;
            self.flushes.push(Flush { item, target });
        }
        if self.flushes.len() == before {
            return Err("a name is missing".into());
        }
        Ok(())
    }

    fn read_ordered(&mut self, words: impl Iterator<Item = &'a [u8]>) -> Result<()> {
        let line = self.ordered_lines;
        self.ordered_lines += 1;
        for word in words {
            let item = self.find(word)?;
            if self.ordered_by[item].replace(line).is_some() {
                return Err("the item is already in a group".into());
            }
        }
        Ok(())
    }

    fn find(&self, name: &[u8]) -> Result<usize> {
        Ok(*self
            .items
            .get(name)
            .ok_or("no earlier line declares this item")?)
    }

    /// Numbers the groups in the order of their first-declared members.
    fn finish(self) -> Declaration<'a> {
        let mut group_of_line = vec![None; self.ordered_lines];
        let mut groups = 0;
        let mut next_group = || {
            groups += 1;
            groups - 1
        };
        let group_of = self
            .ordered_by
            .iter()
            .map(|line| match line {
                Some(line) => *group_of_line[*line].get_or_insert_with(&mut next_group),
                None => next_group(),
            })
            .collect();
        Declaration {
            names: self.names,
            flushes: self.flushes,
            group_of,
            groups,
        }
    }
}
