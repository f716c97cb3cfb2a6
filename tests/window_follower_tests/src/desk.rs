//! A follower and a display, joined: each request is answered at once, in the order of the requests.
use crate::display::{answer, event};
use display_messages::Request;
use owned_lists::Octets;
use std::alloc::Global;
use std::collections::VecDeque;
use std::test::Fail;
use window_follower::{Follower, News, RequestList, Took, Wish};

pub const ROOT: u32 = 9;

#[derive(Drop)]
pub struct Desk {
    pub alloc: Global,
    pub follower: Follower,
    /// What is to be answered, with its number.
    asked: VecDeque<(u16, Request)>,
    last: u16,
}

impl Desk {
    pub fn new(alloc: Global) -> Result<Desk, Fail> {
        let (follower, requests) = Follower::begin(alloc, ROOT)?;
        let mut desk = Desk {
            alloc,
            follower,
            asked: VecDeque::new(alloc),
            last: 0,
        };
        desk.send(requests)?;
        Ok(desk)
    }

    fn send(&mut self, requests: RequestList) -> Result<(), Fail> {
        for request in requests.into_vec() {
            self.last = self.last.wrapping_add(1);
            self.asked.push_back((self.last, request))?;
        }
        Ok(())
    }

    /// A part comes; what the follower says to it, as a word.
    pub fn hear(&mut self, part: &Octets, text: &mut String) -> Result<(), Fail> {
        match self.follower.take(part.as_slice()) {
            Ok(Took { news, requests }) => {
                self.send(requests)?;
                match news {
                    News::Nothing => {}
                    News::Pong { window, stamp } => {
                        text.push_str(format!(in self.alloc; "pong {window} {stamp} ")?.as_str())?
                    }
                    News::Marked { number: 0 } => {}
                    News::Marked { number } => {
                        text.push_str(format!(in self.alloc; "mark {number} ")?.as_str())?
                    }
                }
            }
            Err(fault) => text.push_str(format!(in self.alloc; "{fault:?} ")?.as_str())?,
        }
        Ok(())
    }

    /// All that was asked is answered.
    pub fn answer_all(&mut self, world: &str, text: &mut String) -> Result<(), Fail> {
        while let Some((sequence, request)) = self.asked.pop_front() {
            if let Some(bytes) = answer(self.alloc, world, sequence, &request)? {
                self.hear(&bytes, text)?;
            }
        }
        Ok(())
    }

    pub fn event(&mut self, code: u8, numbers: &[u32], text: &mut String) -> Result<(), Fail> {
        let bytes = event(self.alloc, code, numbers)?;
        self.hear(&bytes, text)
    }

    pub fn wish(&mut self, wish: Wish) -> Result<(), Fail> {
        let requests = match self.follower.wish(wish) {
            Ok(requests) => requests,
            Err(_) => return Err("no wish is granted".into()),
        };
        self.send(requests)
    }

    /// How much was asked and isn't answered.
    pub fn asked_count(&self) -> usize {
        self.asked.len()
    }

    /// The last of what was asked, as it shows itself.
    pub fn last_asked(&self) -> Result<String, Fail> {
        match self.asked.back() {
            Some((_, request)) => Ok(format!(in self.alloc; "{request:?}")?),
            None => Ok("nothing".to_string(self.alloc)?),
        }
    }
}
