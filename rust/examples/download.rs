//! A van downloads a pack from the server, over a link in memory on which a liar sends too; then another van downloads
//! it from a server that names chunks by bins. Each line says who sent what, and what the answer was; the program
//! asserts what it shows.
//!
//! Run it with `cargo run --example download`.

use ppspp::{
    destination, messages, Addressing, Composer, Held, Message, Node, Order, Refusal, Refused,
    Store,
};

/// The van's channel, and the server's for it.
const VAN: u32 = 17;
const SERVER: u32 = 5;

/// The bytes of the pack: four whole chunks, and one of 404 bytes.
const LENGTH: u32 = 4_500;

fn main() -> Result<(), Refused> {
    let content: Vec<u8> = (0..=250).cycle().take(LENGTH as usize).collect();
    println!("A server that names chunks by ranges.");
    let by_ranges = download(Addressing::Ranges, &content)?;
    println!("\nA server that names chunks by bins.");
    let by_bins = download(Addressing::Bins, &content)?;
    assert_eq!(by_bins.bytes(), by_ranges.bytes());
    println!("\nBoth vans have the same bytes.");
    Ok(())
}

/// The van that has downloaded the pack, from a server under an addressing.
fn download(addressing: Addressing, content: &[u8]) -> Result<Store, Refused> {
    let to_build = Order::to_build(LENGTH).addressing(addressing);
    let mut server = Store::build(to_build, content)?;
    let order = server.order().expect("a built store has an order");
    let mut van = Store::start(order)?;
    println!("The order: {LENGTH} bytes, {} chunks.", order.chunk_count());

    exchange_handshakes(&mut van, &mut server, &order)?;
    ask_for_all(&mut van, &mut server, &order)?;
    let written = server.write(SERVER, 0, 1_000)?.to_vec();
    for forged in forgeries(&written, &order)? {
        send_forged(&mut van, &order, &forged);
    }
    for chunk in 0..order.chunk_count() {
        send_chunk(&mut van, &mut server, &order, chunk)?;
    }

    let Held { count, whole } = van.ask()?;
    println!("\nThe van holds {count} chunks; whole: {whole}.");
    assert_eq!((count, whole), (5, true));
    assert_eq!(van.bytes(), content);
    println!("Its bytes are those of the server.");
    Ok(van)
}

/// The van calls and the server answers: a channel is open between them.
fn exchange_handshakes(van: &mut Store, server: &mut Store, order: &Order) -> Result<(), Refused> {
    let calling = van.open(VAN)?;
    show("van", "server", order, calling);
    // Behind the root, option 6 is the addressing: 06 00 for bins, 06 02 for ranges.
    assert_eq!(calling[52..54], [6, order.method as u8]);
    let answering = server.take(0, SERVER, calling)?;
    answered("server", Ok(answering));
    show("server", "van", order, answering);
    let nothing = van.take(0, 0, answering)?;
    answered("van", Ok(nothing));
    assert!(nothing.is_empty());
    Ok(())
}

/// The server says what it has, and the van asks for it.
fn ask_for_all(van: &mut Store, server: &mut Store, order: &Order) -> Result<(), Refused> {
    let n = order.chunk_count();
    let last = match van.addressing() {
        // No bin is over 0..4 alone. That over 0..7 means its part inside the pack.
        Addressing::Bins => n.next_power_of_two() - 1,
        _ => n - 1,
    };
    let have = server.compose(VAN)?.have(0, last)?.finish();
    show("server", "van", order, have);
    answered("van", van.take(100, 0, have));
    assert!((0..n).all(|chunk| van.peer_has(0, chunk)));
    let request = van.compose(SERVER)?.request(0, last)?.finish();
    show("van", "server", order, request);
    answered("server", server.take(200, 0, request));
    assert!((0..n).all(|chunk| server.peer_wants(0, chunk)));
    Ok(())
}

/// A forged datagram: what is wrong with it, and how the van must refuse it.
struct Forged {
    what: &'static str,
    datagram: Vec<u8>,
    wanted: Refused,
}

/// What the liar sends, most of it made of a datagram of the server.
fn forgeries(written: &[u8], order: &Order) -> Result<[Forged; 7], Refusal> {
    let flipped = |place: usize| {
        let mut datagram = written.to_vec();
        datagram[place] ^= 1;
        datagram
    };
    let of = |what, wanted, datagram| Forged {
        what,
        datagram,
        wanted,
    };
    // The first hash stands behind the destination, a type, and a bin or a range. It is that of the peak over 0..3, which
    // is node 3; the root is node 7.
    let hash = match order.known_addressing() {
        Some(Addressing::Bins) => 4 + 1 + 4,
        _ => 4 + 1 + 8,
    };
    let last = written.len() - 1;
    let garbage = vec![0, 0, 0, 17, 0xfe, 0xed, 0xfa, 0xce];
    let (cut, shorter) = (written[..60].to_vec(), written[..last].to_vec());
    let node = |number| Node::of(number).expect("a node of the tree");
    let (missed, no_root) = (Refused::mismatch(node(3)), Refused::mismatch(node(7)));
    let (missing, malformed) = (Refused::missing(node(3)), Refusal::Malformed.into());
    let (size, range) = (Refusal::ChunkSize.into(), Refusal::Range.into());
    let without = [&written[..4], &written[hash + 32..]].concat();
    Ok([
        of("a byte of the chunk is flipped", missed, flipped(last)),
        of("a peak is another", no_root, flipped(hash)),
        of("a peak is left out", missing, without),
        of("it is cut short in a hash", malformed, cut),
        of("it is garbage", malformed, garbage),
        of("the chunk lacks a byte", size, shorter),
        of("the root is given as a peak", range, lone_peak(order)?),
    ])
}

/// A lone peak that is the root, over eight chunks, and a chunk. The order says five.
fn lone_peak(order: &Order) -> Result<Vec<u8>, Refusal> {
    let mut room = [0; ppspp::sizes::REPLY_BYTES];
    let composer = Composer::begin_under(&mut room, order.method, VAN)?;
    let composer = composer.integrity(0, 7, &order.root)?;
    Ok(composer.data(7, 1_000, &[0; 1_024])?.finish().to_vec())
}

/// The liar sends, and the van refuses: nothing of it has changed.
fn send_forged(van: &mut Store, order: &Order, forged: &Forged) {
    println!("\nForged: {}.", forged.what);
    show("liar", "van", order, &forged.datagram);
    let before = van.clone();
    let answer = van.take(1_100, 0, &forged.datagram);
    answered("van", answer);
    assert_eq!(answer, Err(forged.wanted));
    assert_eq!(*van, before);
}

/// The server sends a chunk, and the van acknowledges the longest range of held chunks around it, or the largest bin of
/// them. They come here in their order, so it ends with that chunk.
fn send_chunk(
    van: &mut Store,
    server: &mut Store,
    order: &Order,
    chunk: u32,
) -> Result<(), Refused> {
    println!("\nChunk {chunk}.");
    let datagram = server.write(SERVER, chunk, 2_000)?;
    show("server", "van", order, datagram);
    let ack = van.take(2_250, 0, datagram)?;
    answered("van", Ok(ack));
    show("van", "server", order, ack);
    let first = match server.addressing() {
        // Bins 0, 1, 4, 3 and 8.
        Addressing::Bins => [0, 0, 2, 0, 4][chunk as usize],
        _ => 0,
    };
    let wanted = Message::Ack {
        first,
        last: chunk,
        delay: 250,
    };
    assert!(server.messages(ack).eq([Ok((4, wanted))]));
    answered("server", server.take(2_500, 0, ack));
    assert!(van.holds(chunk) && server.peer_has(0, chunk));
    Ok(())
}

/// Says who sends what: the datagram's messages, up to the first that cannot be read.
fn show(from: &str, to: &str, order: &Order, datagram: &[u8]) {
    let count = datagram.len();
    let channel = destination(datagram).expect("four bytes");
    println!("{from} to {to}, channel {channel}, {count} bytes:");
    let (addressing, n) = (order.known_addressing(), order.chunk_count());
    let addressing = addressing.expect("the order of a store has one");
    for found in messages(addressing, datagram) {
        match found {
            Ok((_, message)) => println!("  {}", message.in_words(addressing).in_pack(n)),
            Err(malformed) => println!("  {malformed}"),
        }
    }
}

/// Says what the answer was.
fn answered(who: &str, answer: Result<&[u8], Refused>) {
    match answer {
        Ok([]) => println!("{who}: done"),
        Ok(reply) => println!("{who}: done, and replies with {} bytes", reply.len()),
        Err(refused) => {
            let number = refused.refusal().number();
            println!("{who}: refused with {number}, {refused}")
        }
    }
}
