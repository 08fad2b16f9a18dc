//! Two routers talk, and each refusal has its name.
use aodv::{Cast, Refused, Router, Took, Variant};
use std::net::Ipv4Addr;

const A: Ipv4Addr = Ipv4Addr::new(10, 0, 0, 1);
const B: Ipv4Addr = Ipv4Addr::new(10, 0, 0, 2);
const C: Ipv4Addr = Ipv4Addr::new(10, 0, 0, 3);
const STRANGER: Ipv4Addr = Ipv4Addr::new(10, 0, 0, 9);

fn pair() -> (Router, Router) {
    let make = |me| Router::new(&[B, A], me, 1, Variant::Base).unwrap();
    (make(A), make(B))
}

#[test]
fn two_routers_talk() {
    let (mut a, mut b) = pair();
    a.give(B, b"hello").unwrap();
    assert_eq!(a.turn(&[B]).unwrap().took(), Took::Stored(B));
    assert_eq!((a.waiting(B), a.askable()), (Ok(1), Ok(vec![B])));
    let request = a.ask(B).unwrap();
    assert_eq!(
        (request.cast(), a.ask(B).err()),
        (Cast::All, Some(Refused::Idle))
    );
    assert_eq!((a.seen(A, 1), a.seen(A, 2)), (Ok(true), Ok(false)));
    b.hear(A, request.packet()).unwrap();
    let reply = b.turn(&[A]).unwrap();
    assert_eq!(
        (reply.took(), reply.cast()),
        (Took::Request(A), Cast::One(A))
    );
    a.hear(B, reply.packet()).unwrap();
    a.turn(&[B]).unwrap();
    let row = a.entry(B).unwrap().unwrap();
    assert_eq!((row.valid, row.hops, row.next), (true, 1, B));
    assert_eq!(a.sendable(), Ok(vec![B]));
    let datum = a.send(&[B], B).unwrap();
    b.hear(A, datum.packet()).unwrap();
    assert_eq!(b.turn(&[]).unwrap().delivered(), Some(&b"hello"[..]));
    assert_eq!(b.turn(&[]).err(), Some(Refused::Idle));
}

#[test]
fn a_unicast_that_is_not_near_breaks_the_link() {
    let (mut a, mut b) = pair();
    a.give(B, b"hello").unwrap();
    a.turn(&[]).unwrap();
    let request = a.ask(B).unwrap();
    b.hear(A, request.packet()).unwrap();
    let reply = b.turn(&[A]).unwrap();
    a.hear(B, reply.packet()).unwrap();
    a.turn(&[B]).unwrap();
    let failed = a.send(&[], B).unwrap();
    assert_eq!(
        (failed.broken(), a.waiting(B), a.askable()),
        (Some(B), Ok(1), Ok(vec![B]))
    );
}

#[test]
fn a_frame_that_failed_breaks_its_link() {
    let mesh = [A, B, C];
    let make = |me| Router::new(&mesh, me, 1, Variant::Base).unwrap();
    let (mut a, mut b, mut c) = (make(A), make(B), make(C));
    a.give(C, b"hello").unwrap();
    a.turn(&[B]).unwrap();
    let request = a.ask(C).unwrap();
    b.hear(A, request.packet()).unwrap();
    c.hear(B, b.turn(&[A, C]).unwrap().packet()).unwrap();
    b.hear(C, c.turn(&[B]).unwrap().packet()).unwrap();
    a.hear(B, b.turn(&[A, C]).unwrap().packet()).unwrap();
    a.turn(&[B]).unwrap();
    let datum = a.send(&[B], C).unwrap();
    b.hear(A, datum.packet()).unwrap();
    assert_eq!(b.turn(&[A, C]).unwrap().cast(), Cast::One(C));
    // The frame to C failed: the datum is heard once more, and C isn't near.
    b.hear(A, datum.packet()).unwrap();
    let failed = b.turn(&[A]).unwrap();
    assert_eq!(
        (failed.broken(), failed.lost(), failed.goes_to(A)),
        (Some(C), true, true)
    );
    a.hear(B, failed.packet()).unwrap();
    assert!(matches!(a.turn(&[B]).unwrap().took(), Took::Error(_)));
    assert_eq!(a.entry(C).unwrap().map(|it| it.valid), Some(false));
}

#[test]
fn a_lost_request_is_cast_again() {
    let (mut a, mut b) = pair();
    a.give(B, b"hello").unwrap();
    a.turn(&[B]).unwrap();
    let request = a.ask(B).unwrap();
    // It is lost. Another datum changes nothing.
    a.give(B, b"again").unwrap();
    a.turn(&[B]).unwrap();
    assert_eq!((a.askable(), a.waiting(B)), (Ok(vec![]), Ok(2)));
    // The same packet once more: the first copy that is heard is answered, and the next is known.
    b.hear(A, request.packet()).unwrap();
    assert_eq!(b.turn(&[A]).unwrap().cast(), Cast::One(A));
    b.hear(A, request.packet()).unwrap();
    assert_eq!(b.turn(&[A]).unwrap().cast(), Cast::Nothing);
}

#[test]
fn refusals_have_names() {
    let new = |addrs: &[Ipv4Addr], me, first| Router::new(addrs, me, first, Variant::Base).err();
    assert_eq!(new(&[A, B, A], A, 1), Some(Refused::Twice));
    assert_eq!(new(&[], A, 1), Some(Refused::NotThere));
    assert_eq!(new(&[A], A, 0), Some(Refused::ZeroNumber));
    let many: Vec<_> = (0..201).map(|it| Ipv4Addr::from(0x0A000000 + it)).collect();
    assert_eq!(new(&many, A, 1), Some(Refused::TooMany));
    let (mut a, _) = pair();
    assert_eq!(a.give(STRANGER, b"x"), Err(Refused::Stranger));
    assert_eq!(a.give(B, b""), Err(Refused::Length));
    assert_eq!(a.give(B, &[0; 513]), Err(Refused::Length));
    assert_eq!(a.give(B, &[0; 512]), Ok(()));
    assert_eq!(a.hear(A, b""), Err(Refused::Own));
    assert_eq!(a.hear(STRANGER, b""), Err(Refused::Stranger));
    assert_eq!(a.entry(B), Ok(None));
    assert_eq!(a.number(), Ok(1));
}

#[test]
fn a_router_goes_to_another_thread() {
    let (mut a, _) = pair();
    let items = std::thread::spawn(move || a.items()).join().unwrap();
    assert_eq!(items, Ok(0));
}
