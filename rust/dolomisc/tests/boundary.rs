//! The crate as a program uses it: sends and deliveries, the order of the queue, every refusal, and memory that is borrowed.
use dolomisc::{frame_stats, store_bytes, Delivery, Frame, Header, Place, Port, Queue, Received, Refusal, Service, Subscription, Tracker, Transfer, Transmitter};

const SCANS: Header = Header::Message { priority: 4, subject: 256, source: Some(42) };
const SCAN_ID: u32 = 0x1061_002A;

fn transfer(header: Header, transfer_id: u8) -> Transfer {
    Transfer { header, transfer_id, stamp: 1_000, loopback: false }
}

fn frame(id: u32, data: &[u8]) -> Frame<'_> {
    Frame { stamp: 0, id, loopback: false, data }
}

fn scans(extent: usize) -> Subscription<Vec<u8>> {
    Subscription::new(Port::Message { subject: 256 }, 2_000_000, extent, vec![0xA5; store_bytes(extent)]).unwrap()
}

#[test]
fn each_scan_is_delivered_once() {
    for mtu in [8, 64] {
        for length in [0, 1, 6, 7, 8, 13, 14, 62, 63, 64, 65, 128, 1023, 1024] {
            for extent in [0, 1, 8, 64, 1024] {
                there_and_back(mtu, length, extent);
            }
        }
    }
}

fn there_and_back(mtu: usize, length: usize, extent: usize) {
    let stats = frame_stats(length, mtu).unwrap();
    let payload: Vec<u8> = (0..length).map(|i| (i * 7 + 1) as u8).collect();
    let mut sent = payload.clone();
    sent.resize(length + stats.padding, 0);
    sent.truncate(extent);
    let mut queue = Queue::new(vec![Place::EMPTY; stats.frames]).unwrap();
    let mut transmitter = Transmitter::new(mtu);
    let mut display = scans(extent);
    for copy in 0..2 {
        transmitter.push(&mut queue, &transfer(SCANS, 0), &payload).unwrap();
        assert_eq!(queue.len(), stats.frames);
        let mut left = stats.frames;
        while let Some(frame) = queue.pop_frame() {
            left -= 1;
            assert_eq!((frame.id(), frame.stamp(), frame.loopback()), (SCAN_ID, 1_000, false));
            assert!(frame.data().len() <= mtu);
            let data = frame.data().to_vec();
            let got = display.accept(Frame { data: &data, ..frame.as_frame() }).unwrap();
            if copy == 0 && left == 0 {
                assert_eq!(got, Received::Delivered(Delivery { header: SCANS, transfer_id: 0, stamp: 1_000, loopback: false, payload: &sent }));
            } else {
                assert_eq!(got, Received::Nothing);
            }
        }
        assert_eq!(left, 0);
    }
    assert_eq!((transmitter.transfer_count(), transmitter.error_count()), (2, 0));
}

#[test]
fn services_go_to_their_node() {
    let request = Header::Request(Service { priority: 1, service: 430, source: 9, destination: 5 });
    let response = Header::Response(Service { priority: 1, service: 430, source: 9, destination: 5 });
    let mut queue = Queue::new([Place::EMPTY; 2]).unwrap();
    let mut transmitter = Transmitter::new(8);
    transmitter.push(&mut queue, &transfer(request, 3), &[1, 2]).unwrap();
    transmitter.push(&mut queue, &transfer(response, 3), &[3]).unwrap();
    let (first, second) = (queue.pop_frame().unwrap(), queue.pop_frame().unwrap());
    assert_eq!((first.id(), second.id()), (0x066B_8289, 0x076B_8289));
    let mut here = Subscription::new(Port::Request { service: 430, node: 5 }, 0, 8, vec![0; store_bytes(8)]).unwrap();
    let mut elsewhere = Subscription::new(Port::Request { service: 430, node: 6 }, 0, 8, vec![0; store_bytes(8)]).unwrap();
    assert_eq!(here.accept(first.as_frame()), Ok(Received::NotOurs));
    assert_eq!(elsewhere.accept(second.as_frame()), Ok(Received::NotOurs));
    let wanted = Delivery { header: request, transfer_id: 3, stamp: 1_000, loopback: false, payload: &[1, 2] };
    assert_eq!(here.accept(second.as_frame()), Ok(Received::Delivered(wanted)));
}

#[test]
fn an_anonymous_message_has_no_source() {
    let header = Header::Message { priority: 0, subject: 8191, source: None };
    let mut queue = Queue::new([Place::EMPTY; 1]).unwrap();
    Transmitter::new(64).push(&mut queue, &transfer(header, 31), &[0x2A]).unwrap();
    let sent = queue.pop_frame().unwrap();
    let mut all = Subscription::new(Port::Message { subject: 8191 }, 0, 0, []).unwrap();
    let wanted = Delivery { header, transfer_id: 31, stamp: 1_000, loopback: false, payload: &[0x2A] };
    assert_eq!(all.accept(sent.as_frame()), Ok(Received::Delivered(wanted)));
}

#[test]
fn the_queue_orders_by_id_and_returns_in_front() {
    let mut memory = [Place::EMPTY; 4];
    let mut queue = Queue::new(&mut memory[..]).unwrap();
    assert!(queue.is_empty() && queue.capacity() == 4 && queue.peek_frame().is_none());
    queue.push_frame(frame(5, &[1])).unwrap();
    queue.push_frame(frame(5, &[2])).unwrap();
    queue.push_frame(frame(9, &[4])).unwrap();
    queue.return_frame(Frame { stamp: 7, loopback: true, ..frame(5, &[3]) }).unwrap();
    assert_eq!(queue.peek_frame().unwrap().as_frame(), Frame { stamp: 7, id: 5, loopback: true, data: &[3] });
    let out: Vec<u8> = core::iter::from_fn(|| queue.pop_frame()).map(|f| f.data()[0]).collect();
    assert_eq!(out, [3, 1, 2, 4]);
}

#[test]
fn every_refusal() {
    let mut display = scans(2);
    assert_eq!(display.accept(frame(1 << 29, &[0])), Err(Refusal::CanId));
    assert_eq!(display.accept(frame(SCAN_ID, &[])), Err(Refusal::NoBytes));
    assert_eq!(display.accept(frame(SCAN_ID, &[0; 65])), Err(Refusal::FrameTooLong));
    assert_eq!(display.accept(frame(SCAN_ID | 1 << 23, &[0])), Err(Refusal::ReservedBit));
    assert_eq!(display.accept(frame(SCAN_ID, &[0])), Err(Refusal::NoSession));
    assert_eq!(display.accept(frame(SCAN_ID, &[0xA0])), Ok(Received::Nothing));
    assert_eq!(display.accept(frame(SCAN_ID, &[7, 0x40])), Err(Refusal::Residue));

    let subscribe = |port, extent, store: &[u8]| Subscription::new(port, 0, extent, store.to_vec()).err();
    assert_eq!(subscribe(Port::Message { subject: 256 }, 2, &[0; 255]), Some(Refusal::StoreTooSmall));
    assert_eq!(subscribe(Port::Message { subject: 256 }, 1025, &[]), Some(Refusal::ExtentTooLarge));
    assert_eq!(subscribe(Port::Message { subject: 8192 }, 1025, &[]), Some(Refusal::Field));
    assert_eq!(subscribe(Port::Request { service: 0, node: 255 }, 0, &[]), Some(Refusal::Field));
    assert_eq!(subscribe(Port::Response { service: 512, node: 0 }, 0, &[]), Some(Refusal::Field));

    assert_eq!(Queue::new(vec![Place::EMPTY; 257]).err(), Some(Refusal::CapacityTooLarge));
    let mut queue = Queue::new([Place::EMPTY; 4]).unwrap();
    let mut transmitter = Transmitter::new(63);
    assert_eq!(transmitter.mtu(), 62);
    let anonymous = Header::Message { priority: 0, subject: 0, source: None };
    let nobody = Header::Message { priority: 0, subject: 0, source: Some(255) };
    let mut push = |mtu, header, length| {
        transmitter.set_mtu(mtu);
        transmitter.push(&mut queue, &transfer(header, 0), &vec![0; length])
    };
    assert_eq!(push(63, nobody, 1025), Err(Refusal::Mtu));
    assert_eq!(push(8, nobody, 1025), Err(Refusal::Field));
    assert_eq!(push(8, anonymous, 1025), Err(Refusal::PayloadTooLong));
    assert_eq!(push(8, anonymous, 8), Err(Refusal::AnonymousTooLong));
    assert_eq!(push(8, SCANS, 29), Err(Refusal::NoPlace));
    assert_eq!((transmitter.transfer_count(), transmitter.error_count()), (0, 5));
    assert!(queue.is_empty());
    assert_eq!(queue.try_reserve(5), Err(Refusal::NoPlace));
    assert_eq!(queue.push_frame(frame(1 << 29, &[0; 65])), Err(Refusal::FrameTooLong));
    assert_eq!(queue.return_frame(frame(1 << 29, &[])), Err(Refusal::CanId));
    assert_eq!(Tracker::new().next_transfer_id(128), Err(Refusal::Field));
}

#[test]
fn a_refusal_says_its_number_and_why() {
    assert_eq!(Refusal::Residue.number(), 6);
    assert_eq!(Refusal::CapacityTooLarge.to_string(), "refusal 14: a queue capacity over 256");
}
