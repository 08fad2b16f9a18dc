//! A datum goes down a line of five routers, each of which has only its neighbours near.
use aodv::{Outcome, Refused, Router, Variant};
use std::net::Ipv4Addr;

struct Line {
    addrs: Vec<Ipv4Addr>,
    routers: Vec<Router>,
}

impl Line {
    fn new(nodes: u8) -> Result<Line, Refused> {
        let addrs: Vec<_> = (1..=nodes).map(|it| Ipv4Addr::new(10, 0, 0, it)).collect();
        let routers = addrs
            .iter()
            .map(|me| Router::new(&addrs, *me, 1, Variant::Base));
        let routers = routers.collect::<Result<_, _>>()?;
        Ok(Line { addrs, routers })
    }

    fn near(&self, i: usize) -> Vec<Ipv4Addr> {
        let beside = [i.checked_sub(1), Some(i + 1)].into_iter().flatten();
        beside
            .filter_map(|it| self.addrs.get(it).copied())
            .collect()
    }

    /// Tells what router i has done, and hands its packet to those near that it goes to.
    fn cast(&mut self, i: usize, out: &Outcome) -> Result<(), Refused> {
        if let Some(body) = out.delivered() {
            println!("{} has {:?}", self.addrs[i], String::from_utf8_lossy(body));
        }
        let from = self.addrs[i];
        for (k, addr) in self.addrs.iter().enumerate() {
            if k.abs_diff(i) == 1 && out.goes_to(*addr) {
                self.routers[k].hear(from, out.packet())?;
            }
        }
        Ok(())
    }

    /// All that router i may do now. False where that is nothing.
    fn act(&mut self, i: usize) -> Result<bool, Refused> {
        let near = self.near(i);
        let mut acted = false;
        while self.routers[i].items()? > 0 {
            let out = self.routers[i].turn(&near)?;
            self.cast(i, &out)?;
            acted = true;
        }
        for dest in self.routers[i].sendable()? {
            let out = self.routers[i].send(&near, dest)?;
            self.cast(i, &out)?;
            acted = true;
        }
        for dest in self.routers[i].askable()? {
            let out = self.routers[i].ask(dest)?;
            self.cast(i, &out)?;
            acted = true;
        }
        Ok(acted)
    }
}

fn main() -> Result<(), Refused> {
    let mut line = Line::new(5)?;
    let last = line.addrs[4];
    line.routers[0].give(last, b"hello")?;
    let mut acted = true;
    while acted {
        acted = false;
        for i in 0..line.routers.len() {
            acted |= line.act(i)?;
        }
    }
    Ok(())
}
