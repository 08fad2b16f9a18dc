//! One proved AODV router for programs that bring their own radio: include/aodv.h in safe Rust.
//!
//! Each function of the library takes anything that its types allow. What it asks of a caller
//! beyond that are pointers to memory of their type or length, and that a handle is used by one
//! call at a time: references, slices and `&mut self` give both.
use std::error::Error;
use std::fmt;
use std::net::Ipv4Addr;

mod raw;

/// Why a call is refused. The router is then as it was, except that after `Malformed` and
/// `NamesStranger` the packet is gone from the inbox.
#[derive(Clone, Copy, Debug, PartialEq, Eq)]
pub enum Refused {
    /// The inbox is empty, or nothing is to be sent or asked for.
    Idle,
    /// The mesh has no such address.
    Stranger,
    /// The address is the router's own.
    Own,
    /// The packet can't be read.
    Malformed,
    /// The packet names an address outside the mesh.
    NamesStranger,
    /// Memory was asked for and not found.
    NoMemory,
    /// A datum has 1 to 512 bytes.
    Length,
    /// The first sequence number is 0.
    ZeroNumber,
    /// An address is there twice.
    Twice,
    /// There are more than 200 addresses.
    TooMany,
    /// The router's own address isn't among them.
    NotThere,
    /// A hop count would go past 255.
    FullHops,
    /// A sequence number would go past 4294967295.
    FullNumber,
    /// A request id would go past 4294967295.
    FullId,
    /// The library has another interface than this crate, or gave a code that this crate lacks.
    Interface,
}

impl Refused {
    /// The old name of `Malformed`.
    #[deprecated(note = "use `Malformed`")]
    #[allow(non_upper_case_globals)]
    pub const Unreadable: Refused = Refused::Malformed;

    fn of(code: u32) -> Refused {
        match code {
            1 => Refused::Idle,
            2 => Refused::Stranger,
            3 => Refused::Own,
            4 => Refused::Malformed,
            5 => Refused::NamesStranger,
            6 => Refused::NoMemory,
            9 => Refused::Length,
            10 => Refused::ZeroNumber,
            12 => Refused::Twice,
            13 => Refused::TooMany,
            14 => Refused::NotThere,
            15 => Refused::FullHops,
            16 => Refused::FullNumber,
            17 => Refused::FullId,
            _ => Refused::Interface,
        }
    }
}

impl fmt::Display for Refused {
    fn fmt(&self, f: &mut fmt::Formatter<'_>) -> fmt::Result {
        f.write_str(match self {
            Refused::Idle => "nothing to do",
            Refused::Stranger => "the mesh has no such address",
            Refused::Own => "the address is the router's own",
            Refused::Malformed => "a packet that can't be read",
            Refused::NamesStranger => "a packet that names a stranger",
            Refused::NoMemory => "no memory",
            Refused::Length => "a datum has 1 to 512 bytes",
            Refused::ZeroNumber => "the first number is 0",
            Refused::Twice => "an address is there twice",
            Refused::TooMany => "there are more than 200 addresses",
            Refused::NotThere => "the router's own address is missing",
            Refused::FullHops => "a hop count is full",
            Refused::FullNumber => "a sequence number is full",
            Refused::FullId => "a request id is full",
            Refused::Interface => "the library has another interface",
        })
    }
}

impl Error for Refused {}

fn done(code: u32) -> Result<(), Refused> {
    match code {
        0 => Ok(()),
        _ => Err(Refused::of(code)),
    }
}

/// A variant of the protocol.
#[derive(Clone, Copy, Debug, PartialEq, Eq)]
pub enum Variant {
    /// As the process algebra AWN has AODV.
    Base,
    /// Requests are told apart by their originator's number, not by their id.
    Number,
    /// A reply is passed on wherever the router has a valid route of its own.
    Reply,
    /// Route errors are broadcast.
    Error,
}

/// What was taken from the inbox.
#[derive(Clone, Copy, Debug, PartialEq, Eq)]
pub enum Took {
    /// Nothing: a datum that waited was sent, or a request made.
    Nothing,
    /// A datum that was given for the router itself.
    Own,
    /// A datum that was given and now waits for a route to this address.
    Stored(Ipv4Addr),
    /// A data packet from this neighbour.
    Data(Ipv4Addr),
    /// A route request from this neighbour.
    Request(Ipv4Addr),
    /// A route reply from this neighbour.
    Reply(Ipv4Addr),
    /// A route error from this neighbour.
    Error(Ipv4Addr),
}

/// To whom a packet goes.
#[derive(Clone, Debug, PartialEq, Eq)]
pub enum Cast {
    /// There is no packet.
    Nothing,
    /// To one neighbour.
    One(Ipv4Addr),
    /// To these neighbours, of which none may be near.
    Many(Vec<Ipv4Addr>),
    /// To all neighbours.
    All,
}

/// What a turn, a send or a request has done. The packet is to be cast as it stands.
#[derive(Clone)]
pub struct Outcome(raw::Outcome);

impl Outcome {
    /// What was taken from the inbox.
    pub fn took(&self) -> Took {
        let from = Ipv4Addr::from(self.0.from);
        match self.0.took {
            1 => Took::Own,
            2 => Took::Stored(Ipv4Addr::from(self.0.dest)),
            3 => Took::Data(from),
            4 => Took::Request(from),
            5 => Took::Reply(from),
            6 => Took::Error(from),
            _ => Took::Nothing,
        }
    }

    /// The datum that has come to its destination, which is this router.
    pub fn delivered(&self) -> Option<&[u8]> {
        self.0.delivered.then_some(self.body())
    }

    /// Whether a datum was dropped. Where a turn took it, it is the body.
    pub fn lost(&self) -> bool {
        self.0.lost
    }

    /// The next hop that wasn't near. The routes over it are gone.
    pub fn broken(&self) -> Option<Ipv4Addr> {
        self.0.broken.then(|| Ipv4Addr::from(self.0.broke))
    }

    /// To whom the packet goes.
    pub fn cast(&self) -> Cast {
        let mut to = self.named();
        match self.0.cast {
            1 => to.next().map_or(Cast::Nothing, Cast::One),
            2 => Cast::Many(to.collect()),
            3 => Cast::All,
            _ => Cast::Nothing,
        }
    }

    /// Whether the packet goes to this neighbour.
    pub fn goes_to(&self, neighbour: Ipv4Addr) -> bool {
        self.0.cast == 3 || self.named().any(|it| it == neighbour)
    }

    /// The packet, or no bytes.
    pub fn packet(&self) -> &[u8] {
        &self.0.packet[..self.0.packet_len as usize]
    }

    /// The datum that was taken, unless it waits now; or no bytes.
    pub fn body(&self) -> &[u8] {
        &self.0.body[..self.0.body_len as usize]
    }

    fn named(&self) -> impl Iterator<Item = Ipv4Addr> + '_ {
        let to = &self.0.to[..self.0.to_len as usize];
        to.iter().map(|it| Ipv4Addr::from(*it))
    }
}

/// An entry of the routing table.
#[derive(Clone, Debug, PartialEq, Eq)]
pub struct Row {
    /// The destination's sequence number. 0 is unknown.
    pub number: u32,
    /// Whether that number is known.
    pub known: bool,
    /// Whether the route is valid.
    pub valid: bool,
    /// The number of hops to the destination.
    pub hops: u32,
    /// The next hop towards the destination.
    pub next: Ipv4Addr,
    /// Neighbours that were told of this route and may use it.
    pub precursors: Vec<Ipv4Addr>,
}

fn list(numbers: &[u32]) -> Vec<Ipv4Addr> {
    numbers.iter().map(|it| Ipv4Addr::from(*it)).collect()
}

/// A router and its mesh.
pub struct Router {
    handle: raw::Handle,
    // The addresses that are near, as the library takes them.
    near: Vec<u32>,
}

// The library proves it of what a handle holds.
unsafe impl Send for Router {}

impl Router {
    /// A router of a mesh of exactly these addresses, each of them once and at most 200. `first`
    /// is its first sequence number: above the last that it had, where it was there before.
    pub fn new(
        addrs: &[Ipv4Addr],
        me: Ipv4Addr,
        first: u32,
        variant: Variant,
    ) -> Result<Router, Refused> {
        if unsafe { raw::aodv_version() } != raw::VERSION {
            return Err(Refused::Interface);
        }
        let addrs: Vec<u32> = addrs.iter().map(|it| u32::from(*it)).collect();
        let mut router = Router {
            handle: raw::Handle::NOTHING,
            near: Vec::new(),
        };
        let code = unsafe {
            let variant = variant as u32;
            let (start, n) = (addrs.as_ptr(), addrs.len());
            raw::aodv_new(&mut router.handle, start, n, me.into(), first, variant)
        };
        done(code)?;
        Ok(router)
    }

    /// A packet that a neighbour has cast joins the inbox, whatever its bytes are.
    pub fn hear(&mut self, from: Ipv4Addr, bytes: &[u8]) -> Result<(), Refused> {
        let (start, n) = (bytes.as_ptr(), bytes.len());
        done(unsafe { raw::aodv_hear(&mut self.handle, from.into(), start, n) })
    }

    /// A datum of 1 to 512 bytes for an address joins the inbox.
    pub fn give(&mut self, dest: Ipv4Addr, body: &[u8]) -> Result<(), Refused> {
        let (start, n) = (body.as_ptr(), body.len());
        done(unsafe { raw::aodv_give(&mut self.handle, dest.into(), start, n) })
    }

    fn set_near(&mut self, near: &[Ipv4Addr]) {
        self.near.clear();
        self.near.extend(near.iter().map(|it| u32::from(*it)));
    }

    /// Takes the front item of the inbox, and does with it what AODV does. A unicast reaches those
    /// that are near.
    pub fn turn(&mut self, near: &[Ipv4Addr]) -> Result<Outcome, Refused> {
        self.set_near(near);
        let mut out = raw::Outcome::EMPTY;
        let (start, n) = (self.near.as_ptr(), self.near.len());
        done(unsafe { raw::aodv_turn(&mut self.handle, start, n, &mut out) })?;
        Ok(Outcome(out))
    }

    /// Sends the first datum that waits for an address to the next hop, if there is a valid route.
    pub fn send(&mut self, near: &[Ipv4Addr], dest: Ipv4Addr) -> Result<Outcome, Refused> {
        self.set_near(near);
        let mut out = raw::Outcome::EMPTY;
        let (start, n) = (self.near.as_ptr(), self.near.len());
        done(unsafe { raw::aodv_send(&mut self.handle, start, n, dest.into(), &mut out) })?;
        Ok(Outcome(out))
    }

    /// Asks all neighbours for a route to an address, if data wait for it, there is no valid route,
    /// and none was asked for.
    pub fn ask(&mut self, dest: Ipv4Addr) -> Result<Outcome, Refused> {
        let mut out = raw::Outcome::EMPTY;
        done(unsafe { raw::aodv_ask(&mut self.handle, dest.into(), &mut out) })?;
        Ok(Outcome(out))
    }

    /// How many items wait in the inbox: while there is one, `turn`.
    pub fn items(&mut self) -> Result<usize, Refused> {
        let mut count = 0;
        done(unsafe { raw::aodv_items(&mut self.handle, &mut count) })?;
        Ok(count)
    }

    /// The addresses for which `send` isn't idle.
    pub fn sendable(&mut self) -> Result<Vec<Ipv4Addr>, Refused> {
        let mut it = raw::Addrs::EMPTY;
        done(unsafe { raw::aodv_sendable(&mut self.handle, &mut it) })?;
        Ok(list(&it.addrs[..it.len as usize]))
    }

    /// The addresses for which `ask` isn't idle.
    pub fn askable(&mut self) -> Result<Vec<Ipv4Addr>, Refused> {
        let mut it = raw::Addrs::EMPTY;
        done(unsafe { raw::aodv_askable(&mut self.handle, &mut it) })?;
        Ok(list(&it.addrs[..it.len as usize]))
    }

    /// The router's own sequence number: a router that is to begin again keeps it.
    pub fn number(&mut self) -> Result<u32, Refused> {
        let mut number = 0;
        done(unsafe { raw::aodv_number(&mut self.handle, &mut number) })?;
        Ok(number)
    }

    /// The table's entry for an address, if there is one.
    pub fn entry(&mut self, dest: Ipv4Addr) -> Result<Option<Row>, Refused> {
        const NO_ENTRY: u32 = 18;
        let mut row = raw::Row::EMPTY;
        match unsafe { raw::aodv_entry(&mut self.handle, dest.into(), &mut row) } {
            NO_ENTRY => Ok(None),
            code => done(code).map(|()| {
                Some(Row {
                    number: row.dsn,
                    known: row.known,
                    valid: row.valid,
                    hops: row.hops,
                    next: Ipv4Addr::from(row.next),
                    precursors: list(&row.pre[..row.pre_len as usize]),
                })
            }),
        }
    }

    /// How many data wait for an address.
    pub fn waiting(&mut self, dest: Ipv4Addr) -> Result<usize, Refused> {
        let mut count = 0;
        done(unsafe { raw::aodv_waiting(&mut self.handle, dest.into(), &mut count) })?;
        Ok(count)
    }

    /// Whether an originator's request of this id was seen.
    pub fn seen(&mut self, originator: Ipv4Addr, id: u32) -> Result<bool, Refused> {
        let mut seen = false;
        done(unsafe { raw::aodv_seen(&mut self.handle, originator.into(), id, &mut seen) })?;
        Ok(seen)
    }
}

impl Drop for Router {
    fn drop(&mut self) {
        unsafe { raw::aodv_free(&mut self.handle) }
    }
}
