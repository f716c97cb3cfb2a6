//! Logins over a store in memory: what is kept, what is written, and in which order.

use crate::stores::{book_in, store_of, world_of};
use checkpoint_journal::Journal;
use checkpoint_records::Book;
use kept_books::{Kept, Shelf};
use login_plan::{Choice, plan_login};
use owned_lists::{NumberList, Octets};
use sm_world::Failed;
use std::alloc::Global;
use std::test::Fail;
use store_login::{Keeping, Login, carry_out};
use test_tables::expect_rows;
use written_books::{book_from, parted};

/// A place in which books are kept, which tells what it was asked.
#[derive(Drop)]
struct Place {
    alloc: Global,
    told: String,
    /// How many calls succeed before the one that fails.
    left: usize,
}

impl Place {
    fn tell(&mut self, text: &str) -> Result<(), Failed> {
        if self.left == 0 {
            return Err(Failed);
        }
        self.left -= 1;
        match self.told.push_str(text) {
            Ok(()) => Ok(()),
            Err(_) => Err(Failed),
        }
    }
}

impl Keeping for Place {
    fn put(&mut self, number: u64, _session: &[u8], book: &Book) -> Result<(), Failed> {
        let epoch = book.epoch;
        match format!(in self.alloc; "; puts {number} of epoch {epoch}") {
            Ok(text) => self.tell(text.as_str()),
            Err(_) => Err(Failed),
        }
    }

    fn leave(&mut self, shelf: &[Kept]) -> Result<(), Failed> {
        let count = shelf.len();
        match format!(in self.alloc; "; leaves {count}") {
            Ok(text) => self.tell(text.as_str()),
            Err(_) => Err(Failed),
        }
    }
}

fn choice_from(word: &str) -> Result<Choice, Fail> {
    if word == "stay" {
        return Ok(Choice::Stay);
    }
    Ok(Choice::Back(word.parse::<u64>()?))
}

/// A shelf with this book of `default` alone, which has the number 7.
fn shelf_of(alloc: Global, line: &str) -> Result<Shelf, Fail> {
    let mut shelf = Shelf::new(alloc);
    shelf.push(Kept {
        number: 7,
        session: Octets::from_slice(alloc, b"default")?,
        book: book_from(alloc, line)?,
    })?;
    Ok(shelf)
}

/// A login to `default` over this shelf and this store, for which a number or `stay` was chosen; before
/// that stands how many calls succeed of the place in which books are kept. Behind the answer stand
/// these calls, how many effects the store had, and its book.
fn carried(alloc: Global, input: &str) -> Result<String, Fail> {
    let (kept, words, present) = parted(input)?;
    let Some((left, word)) = words.split_once(" ") else {
        return Err("a row without a choice".into());
    };
    let shelf = shelf_of(alloc, kept)?;
    let mut world = world_of(alloc, store_of(alloc, present)?, NumberList::new(alloc))?;
    let Ok((journal, found)) = Journal::recover_from(alloc, &mut world) else {
        return Err("no store opens".into());
    };
    let choice = choice_from(word)?;
    let Ok(plan) = plan_login(alloc, choice, b"default", shelf.as_slice(), &found) else {
        return Err("nothing is planned".into());
    };
    let login = Login {
        session: b"default",
        shelf: shelf.as_slice(),
        present: &found,
    };
    let mut place = Place {
        alloc,
        told: String::new(alloc),
        left: left.parse::<usize>()?,
    };
    let answer = carry_out(alloc, &mut world, &mut place, journal, login, &plan);
    let count = world.effects().len();
    let book = book_in(alloc, Octets::from_slice(alloc, world.file())?)?;
    let told = place.told.as_str();
    Ok(format!(in alloc; "{answer:?}{told}; {count} effects; {book}")?)
}

/// The present book is kept before the store gets another, and that behind it: where the first call
/// fails nothing is written, and where the second does the store has its book. Where the session stays
/// the store is written only for an epoch behind what is kept.
const CARRIED: &str = "\
1 default:1-1 / 9 7 / 3 default:1-2 => Ok(()); puts 8 of epoch 3; puts 9 of epoch 3; leaves 2; 4 effects; 3 default smd-00000001-00000001
1 default:1-1 / 0 7 / 3 default:1-2 => Err(Unkept); 0 effects; 3 default smd-00000001-00000002
1 default:1-1 / 1 7 / 3 default:1-2 => Err(Unkept); puts 8 of epoch 3; 4 effects; 3 default smd-00000001-00000001
1 default:1-1 / 2 7 / 3 default:1-2 => Err(Unkept); puts 8 of epoch 3; puts 9 of epoch 3; 4 effects; 3 default smd-00000001-00000001
1 default:1-1 / 9 stay / 3 default:1-2 => Ok(()); puts 8 of epoch 3; leaves 2; 0 effects; 3 default smd-00000001-00000002
1 default:1-1 / 9 stay / 3 default:1-1 => Ok(()); puts 8 of epoch 3; leaves 1; 0 effects; 3 default smd-00000001-00000001
5 default:1-1 / 9 stay / 3 default:1-2 => Ok(()); puts 8 of epoch 65541; leaves 2; 4 effects; 65541 default smd-00000001-00000002
5 default:1-1 / 0 stay / 3 default:1-2 => Err(Unkept); 0 effects; 3 default smd-00000001-00000002";

#[test]
fn what_goes_is_kept_first(rt: HostRuntime) -> Result<(), Fail> {
    expect_rows(&rt, CARRIED, carried)
}
