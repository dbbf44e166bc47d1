//! A small ordered index: documents by the value at a path, in a BTreeMap. cargo run --example index

use std::collections::BTreeMap;
use std::ops::Bound;
use vizhoniku::{sort_key, Error, Key, KeyRef, Mode};

/// Documents by the value of the part at a path. Those without one aren't in it.
struct Index {
    path: &'static str,
    documents: BTreeMap<Key, Vec<Key>>,
}

impl Index {
    fn new(path: &'static str) -> Index {
        Index { path, documents: BTreeMap::new() }
    }

    fn insert(&mut self, text: &str) -> Result<(), Error> {
        let document = sort_key(text, Mode::Extended)?;
        if let Some(part) = document.pointer(self.path)? {
            // Only a value that is new is copied.
            match self.documents.get_mut(part) {
                Some(others) => others.push(document),
                None => {
                    self.documents.insert(part.to_owned(), vec![document]);
                }
            }
        }
        Ok(())
    }

    /// The documents whose part is from the first value up to the second one, without that, in the order of the parts.
    fn range<'a>(&'a self, from: &KeyRef, to: &KeyRef) -> impl Iterator<Item = &'a Key> {
        self.documents.range::<KeyRef, _>((Bound::Included(from), Bound::Excluded(to))).flat_map(|(_, found)| found)
    }
}

fn main() -> Result<(), Error> {
    let mut index = Index::new("/price");
    for text in [
        r#"{"name": "pen", "price": 1.50}"#,
        r#"{"name": "cup", "price": 10}"#,
        r#"{"name": "map", "price": 9.5}"#,
        r#"{"name": "cap", "price": 10.0}"#,
        r#"{"name": "gift"}"#,
    ] {
        index.insert(text)?;
    }
    for document in index.range(&sort_key("9", Mode::Standard)?, &sort_key("11", Mode::Standard)?) {
        println!("{document}");
    }
    Ok(())
}
