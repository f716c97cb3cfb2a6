//! What the words of a login say, by rows.

use std::alloc::Global;
use std::test::Fail;
use store_login::{are_of_kept, are_of_login, read_kept_order, read_login};
use test_tables::{expect_rows, text_of, words_of};

fn said(alloc: Global, line: &str) -> Result<String, Fail> {
    let words = words_of(alloc, line)?;
    let words = words.as_slice();
    if are_of_login(words) {
        return text_of(alloc, &read_login(alloc, words)?);
    }
    if are_of_kept(words) {
        return text_of(alloc, &read_kept_order(words));
    }
    text_of(alloc, &"neither")
}

const SAID: &str = "\
login --store s --kept k => Some(LoginOrder { store: \"s\", kept: \"k\", session: \"default\", choice: Unasked })
login --kept k --choice stay --session work --store s => Some(LoginOrder { store: \"s\", kept: \"k\", session: \"work\", choice: Stay })
login --kept k --choice nobody --store s => Some(LoginOrder { store: \"s\", kept: \"k\", session: \"default\", choice: Nobody })
login --kept k --choice anew --store s => Some(LoginOrder { store: \"s\", kept: \"k\", session: \"default\", choice: Anew })
login --kept k --choice 12 --store s => Some(LoginOrder { store: \"s\", kept: \"k\", session: \"default\", choice: Back(12) })
login --kept k --choice 012 --store s => None
login --kept k --choice Stay --store s => None
login --kept k --store s --choice => None
login --kept k => None
login --kept k --store s --store s => None
login --kept k --store s --session a\u{7f}b => None
kept --store s --kept k => Some(LoginOrder { store: \"s\", kept: \"k\", session: \"default\", choice: Unasked })
kept --kept k --session work --store s => Some(LoginOrder { store: \"s\", kept: \"k\", session: \"work\", choice: Unasked })
kept --kept k --choice 1 --store s => None
keep --store s --kept k => \"neither\"";

#[test]
fn words_are_read(rt: HostRuntime) -> Result<(), Fail> {
    expect_rows(&rt, SAID, said)
}
