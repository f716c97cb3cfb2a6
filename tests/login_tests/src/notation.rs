//! Shelves as a line of text: each book behind its number and its session, as `3@work 2 work:1-1`, and
//! `; ` between them.

use kept_books::{Kept, Shelf};
use owned_lists::Octets;
use std::alloc::Global;
use std::test::Fail;
use written_books::book_from;

fn kept_from(alloc: Global, line: &str) -> Result<Kept, Fail> {
    let (head, book) = line.split_once(" ").unwrap_or((line, ""));
    let Some((number, session)) = head.split_once("@") else {
        return Err("nothing is kept so".into());
    };
    Ok(Kept {
        number: number.parse::<u64>()?,
        session: Octets::from_slice(alloc, session.as_bytes())?,
        book: book_from(alloc, book)?,
    })
}

/// The shelf of a line, which has nothing where the line is `none`.
pub fn shelf_from(alloc: Global, line: &str) -> Result<Shelf, Fail> {
    let mut shelf = Shelf::new(alloc);
    if line == "none" {
        return Ok(shelf);
    }
    for item in line.split("; ") {
        shelf.push(kept_from(alloc, item)?)?;
    }
    Ok(shelf)
}

/// The numbers and sessions of a shelf.
pub fn shelf_shown(alloc: Global, shelf: &[Kept]) -> Result<String, Fail> {
    let mut text = String::new(alloc);
    for kept in shelf {
        let number = kept.number;
        let session = str::from_utf8(kept.session.as_slice())?;
        let item = format!(in alloc; " {number}@{session}")?;
        text.push_str(item.as_str())?;
    }
    Ok(text)
}

/// The two parts of a line around its first ` / `.
pub fn halves(line: &str) -> Result<(&str, &str), Fail> {
    match line.split_once(" / ") {
        Some(parts) => Ok(parts),
        None => Err("a line without two parts".into()),
    }
}
