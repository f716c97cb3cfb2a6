//! What comes back over the book of a store, by rows written down by hand.

use checkpoint_records::{Book, count_entries, count_sessions};
use session_return::{
    Refusal, again_is_the_same, all_sessions_come_back, due_discards_stay, entries_back,
    epochs_never_fall, fate_of, nothing_back_is_due, nothing_becomes_due, other_sessions_stay,
    put_back, returns_keep_rules, there_is_a_way_back,
};
use std::alloc::{Alloc, Global};
use std::process::Abort;
use std::test::Fail;
use test_tables::{expect_rows, text_of};
use written_books::{book_from, parted, shown, which_of};

fn answer(alloc: Global, input: &str) -> Result<Result<Book, Refusal>, Fail> {
    let (kept, name, present) = parted(input)?;
    let kept = book_from(alloc, kept)?;
    let present = book_from(alloc, present)?;
    Ok(put_back(alloc, &which_of(alloc, name)?, &kept, &present))
}

/// The book that is left, or what stands in the way.
fn left(alloc: Global, input: &str) -> Result<String, Fail> {
    match answer(alloc, input)? {
        Ok(book) => shown(alloc, &book),
        Err(refusal) => text_of(alloc, &refusal),
    }
}

/// How many entries and sessions are left, or what stands in the way.
fn counted(alloc: Global, input: &str) -> Result<String, Fail> {
    match answer(alloc, input)? {
        Ok(book) => text_of(alloc, &(count_entries(&book), count_sessions(&book))),
        Err(refusal) => text_of(alloc, &refusal),
    }
}

fn fates(alloc: Global, input: &str) -> Result<String, Fail> {
    let (kept, name, present) = parted(input)?;
    let kept = book_from(alloc, kept)?;
    let present = book_from(alloc, present)?;
    let back = entries_back(alloc, &which_of(alloc, name)?, &kept)?;
    let mut text = String::new(alloc);
    for entry in back.as_slice() {
        let fate = fate_of(alloc, &present, entry)?;
        text.push_str(text_of(alloc, &fate)?.as_str())?;
        text.push(' ')?;
    }
    Ok(text)
}

/// One session, also where the store has none of it or something stands in its way; all over a store
/// that was lost; and the way back from the first row.
const LEFT: &str = "\
1 default:1-1=d,1-2 / default / 3 default:1-1=e work:2-1=w !d !f => 3 default smd-00000001-00000001=d smd-00000001-00000002 work smd-00000002-00000001=w !f
1 default:1-1=d,1-2 / --all / 0 => 65537 default smd-00000001-00000001=d smd-00000001-00000002
1 default:1-1=d,1-2 !g / --all / 3 work:2-1=w !d !f => 3 default smd-00000001-00000001=d smd-00000001-00000002 !f
3 default:1-1=e work:2-1=w !d !f / default / 3 default:1-1=d,1-2 work:2-1=w !f => 3 default smd-00000001-00000001=e work smd-00000002-00000001=w !f
4 work:2-1=w / work / 3 default:1-1=d !w => 65540 default smd-00000001-00000001=d work smd-00000002-00000001=w
3 work:2-1=w / work / 3 a:1-1 zz:1-2 => 3 default a smd-00000001-00000001 work smd-00000002-00000001=w zz smd-00000001-00000002
3 work:2-2,2-1 / work / 3 work:2-1,2-2 => 3 default work smd-00000002-00000002 smd-00000002-00000001
1 default:1-1 / d / 3 a:2-1 => Stopped(NoSession)
1 / --all / 3 a:2-1 => Stopped(NoSession)
1 c:1-1 / c / 3 a:1-1 => Stopped(Clash)
4294967294 c:1-1 / c / 4294967294 a:2-1 => 4294967294 default a smd-00000002-00000001 c smd-00000001-00000001
4294967295 c:1-1 / c / 4294967295 a:2-1 => Stopped(Worn)
4294901758 c:1-1 / c / 0 => 4294967294 default c smd-00000001-00000001
4294901759 c:1-1 / c / 0 => Stopped(Worn)
4294967294 c:1-1 / c / 0 => Stopped(Worn)";

/// At the limits: eight sessions with one more, and with one of theirs; and 128 entries. Where two
/// stand in the way, the first is told.
const COUNTED: &str = "\
3 i:3-1 / i / 3 a:1-1 b:1-2 c:1-3 d:1-4 e:1-5 f:1-6 g:1-7 h:1-8 => Stopped(TooManySessions)
3 a:3-1 / a / 3 a:1-1 b:1-2 c:1-3 d:1-4 e:1-5 f:1-6 g:1-7 h:1-8 => (8, 8)
3 b:2-1*29 / b / 3 a:1-1*100 b:3-1 => Stopped(TooManyEntries)
3 b:2-1*28 / b / 3 a:1-1*100 b:3-1 => (128, 2)
3 i:1-1*128 / i / 3 a:1-1 b:1-2 c:1-3 d:1-4 e:1-5 f:1-6 g:1-7 h:1-8 => Stopped(Clash)
3 i:2-1*128 / i / 3 a:1-1 b:1-2 c:1-3 d:1-4 e:1-5 f:1-6 g:1-7 h:1-8 => Stopped(TooManyEntries)";

/// What the store's book knows of each.
const FATES: &str = "\
1 default:1-1=d,1-2 / default / 3 default:1-1=e work:2-1=w !d !f => Due Own 
1 default:1-1=w,1-2=e,1-3=x / default / 3 default:1-1=e work:2-1=w !d !f => There There Unkept 
1 default:1-1=w work:1-2=d / --all / 0 => Unkept Unkept ";

#[test]
fn sessions_come_back(rt: HostRuntime) -> Result<(), Fail> {
    expect_rows(&rt, LEFT, left)
}

#[test]
fn limits_hold(rt: HostRuntime) -> Result<(), Fail> {
    expect_rows(&rt, COUNTED, counted)
}

#[test]
fn states_are_told(rt: HostRuntime) -> Result<(), Fail> {
    expect_rows(&rt, FATES, fates)
}

#[test]
fn laws_hold(_rt: HostRuntime) {
    returns_keep_rules();
    other_sessions_stay();
    all_sessions_come_back();
    epochs_never_fall();
    due_discards_stay();
    nothing_becomes_due();
    nothing_back_is_due();
    again_is_the_same();
    there_is_a_way_back();
}
