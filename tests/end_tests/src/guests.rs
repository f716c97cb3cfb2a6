//! Clients of three kinds, which hear bytes and say some.

use crate::dice::Dice;
use crate::streams::{SAVE_YOURSELF, SAVE_YOURSELF_DONE, Stream};
use client_callbacks::{ClientEnd, JoinFault};
use client_peer::MemPeer;
use ice_cookie::Cookie;
use ice_values::Array8;
use named_joiner::{NamedEnd, NamedJoiner};
use outer_agent::{Agent, AgentAct, AgentActs};
use owned_lists::{Duplicate, NumberList, Octets, OctetsList, PairList};
use sm_world::{Conn, Effect};
use std::alloc::{Alloc, Global};
use std::process::Abort;
use std::test::Fail;
use worked_values::{Moody, Silent, first_join, run_client};

/// The cookie of the session, which is that of `first_join`.
pub(crate) const COOKIE: Cookie = Cookie([0, 1, 2, 3, 4, 5, 6, 7, 8, 9, 10, 11, 12, 13, 14, 15]);

/// Another one.
const OTHER_COOKIE: Cookie = Cookie([9; 16]);

/// The ID of the first new client of a store.
const FIRST_ID: &[u8] = b"smd-00000001-00000001";

/// The three kinds of clients.
#[derive(Drop)]
enum Kind {
    /// A client with callbacks and a peer, which runs to its end. All the pieces so far are its peer's,
    /// and it runs over them anew at each piece.
    Joins(OctetsList),
    /// A client that is told its ID, and hears pieces.
    Named(NamedJoiner<Moody, Silent>),
    /// A manager that is itself a client.
    Nests(Agent),
}

/// A client with its connection.
#[derive(Drop)]
pub(crate) struct Guest {
    pub(crate) conn: Conn,
    kind: Kind,
    pub(crate) up: Stream,
    pub(crate) down: Stream,
    /// It has another cookie.
    is_stranger: bool,
    /// It hears nothing more.
    is_over: bool,
    /// The connection is shut or broken, and the client may still take what it was sent before.
    pub(crate) is_gone: bool,
    /// How often it was told SaveYourself, and how often it said SaveYourselfDone.
    saves: u64,
    answers: u64,
}

/// What a client is that was let in, or not, and what it says first.
fn kind_of(alloc: Global, dice: &mut Dice, cookie: Cookie) -> Result<(Kind, Octets), Fail> {
    let previous = if dice.roll(4) == 0 {
        Array8::from_slice(alloc, FIRST_ID)?
    } else {
        Array8::new(alloc)
    };
    if dice.flip() {
        let save = Moody {
            alloc,
            mood: dice.roll(1 << 32) as u32,
        };
        let (joiner, first) = NamedJoiner::new(alloc, cookie, previous, save, Silent { alloc })?;
        return Ok((Kind::Named(joiner), first));
    }
    let mut words = OctetsList::new(alloc);
    words.push(Octets::from_slice(alloc, b"smnest")?)?;
    let (agent, first) = Agent::new(alloc, cookie, previous, words)?;
    Ok((Kind::Nests(agent), first))
}

/// All that a client says which hears these pieces, and whether it came to its end.
fn run_over(alloc: Global, pieces: &OctetsList) -> Result<(Octets, bool), Fail> {
    let pieces = pieces.copy()?;
    let none = NumberList::new(alloc);
    let mut peer = MemPeer::new(alloc, pieces, PairList::new(alloc), none)?;
    let mut join = first_join(alloc);
    let answer = run_client(alloc, &mut peer, &mut join);
    let mut said = Octets::new(alloc);
    for effect in peer.effects() {
        if let Effect::Sent(_, bytes) = effect {
            said.append(bytes.as_slice())?;
        }
    }
    match answer {
        Ok(ClientEnd::StreamEnded { .. }) => Ok((said, false)),
        Ok(_) => Ok((said, true)),
        Err(JoinFault::NoMemory) => Err("no memory".into()),
        Err(_) => Err("a client is refused".into()),
    }
}

/// The bytes that an agent sends of these acts.
fn sent_of(alloc: Global, acts: &AgentActs) -> Result<Octets, Fail> {
    let mut said = Octets::new(alloc);
    for act in acts.as_slice() {
        if let AgentAct::Send(bytes) = act {
            said.append(bytes.as_slice())?;
        }
    }
    Ok(said)
}

/// Whether an agent drops its connection by these acts.
fn drops(acts: &AgentActs) -> bool {
    acts.as_slice()
        .iter()
        .any(|act| matches!(act, AgentAct::Drop))
}

impl Guest {
    /// A client that may have another cookie; one with callbacks has the right one.
    pub(crate) fn new(alloc: Global, dice: &mut Dice, conn: Conn) -> Result<Guest, Fail> {
        let is_plain = dice.roll(3) == 0;
        let is_stranger = !is_plain && dice.roll(10) == 0;
        let cookie = if is_stranger { OTHER_COOKIE } else { COOKIE };
        let (kind, first) = if is_plain {
            let pieces = OctetsList::new(alloc);
            let (said, _over) = run_over(alloc, &pieces)?;
            (Kind::Joins(pieces), said)
        } else {
            kind_of(alloc, dice, cookie)?
        };
        let mut up = Stream::new(alloc);
        up.say(first.as_slice())?;
        Ok(Guest {
            conn,
            kind,
            up,
            down: Stream::new(alloc),
            is_stranger,
            is_over: false,
            is_gone: false,
            saves: 0,
            answers: 0,
        })
    }

    /// What it says about a piece, and whether it hears nothing more then.
    fn said_to(&mut self, alloc: Global, piece: Octets) -> Result<(Octets, bool), Fail> {
        match &mut self.kind {
            Kind::Joins(pieces) => {
                pieces.push(piece)?;
                let (said, is_over) = run_over(alloc, pieces)?;
                let before = self.up.said();
                let more = Octets::from_slice(alloc, &said.as_slice()[before..])?;
                Ok((more, is_over))
            }
            Kind::Named(joiner) => match joiner.hear(piece.as_slice()) {
                Ok(reply) => {
                    if matches!(reply.end, Some(NamedEnd::Malformed { .. })) {
                        return Err("a client can't read its manager".into());
                    }
                    if matches!(reply.end, Some(NamedEnd::Refused { .. })) && !self.is_stranger {
                        return Err("a client is refused".into());
                    }
                    let is_over = reply.end.is_some();
                    Ok((reply.bytes, is_over))
                }
                Err(_) => Err("a client hears no more".into()),
            },
            Kind::Nests(agent) => match agent.hear(piece.as_slice()) {
                Ok(acts) => Ok((sent_of(alloc, &acts)?, drops(&acts))),
                Err(_) => Err("an agent hears no more".into()),
            },
        }
    }

    /// So many bytes come to the client, which says what it says about them.
    pub(crate) fn hear(&mut self, alloc: Global, count: usize) -> Result<(), Fail> {
        let piece = self.down.take(alloc, count)?;
        if self.is_over {
            return Ok(());
        }
        let (said, is_over) = self.said_to(alloc, piece)?;
        self.up.say(said.as_slice())?;
        self.is_over = is_over;
        Ok(())
    }

    /// A manager's own client is told how a save of its session ended, or that the session came to its end.
    pub(crate) fn wish(&mut self, dice: &mut Dice) -> Result<(), Fail> {
        if self.is_over {
            return Ok(());
        }
        if let Kind::Nests(agent) = &mut self.kind {
            let said = if dice.roll(12) == 0 {
                agent.close()
            } else {
                agent.ended(dice.roll(4) > 0)
            };
            match said {
                Ok(bytes) => self.up.say(bytes.as_slice())?,
                Err(_) => return Err("an agent says no more".into()),
            }
        }
        Ok(())
    }

    /// Neither end says BadState, and no save is answered twice; says how many were answered now.
    pub(crate) fn check(&mut self, rt: &(impl Abort + Alloc<A = Global>)) -> u64 {
        let answered = self.up.look(rt, SAVE_YOURSELF_DONE);
        self.saves += self.down.look(rt, SAVE_YOURSELF);
        self.answers += answered;
        assert!(rt; self.answers <= self.saves);
        answered
    }
}
