use super::*;

/// The layout of a datagram and the nodes found.
fn found(datagram: &[u8]) -> (Result<Layout, u8>, Vec<(u64, usize)>) {
    let mut nodes = vec![(77, 77)];
    let layout = layout(Addressing::Ranges, datagram, &mut nodes);
    (layout, nodes)
}

/// "Datagram of 3 bytes: 1; 4: 5 or done; 2,049: 1."
#[test]
fn sizes() {
    for (len, expected) in [(0, 1), (3, 1), (4, 0), (5, 0), (2048, 0), (2049, 1)] {
        assert_eq!(number(&vec![10; len]), expected, "{len}");
    }
    assert_eq!(found(&[0; 3]), (Err(1), vec![]));
}

/// 24, 35, 38: a keepalive, messages, and DATA to the end.
#[test]
fn sound_layouts() {
    assert_eq!(found(&to(0, &[])), (Ok(Layout::Messages), vec![]));
    let messages = to(5, &[&integrity(0, 3), &[10], &integrity(0, 1)]);
    let nodes = vec![(3, 13), (1, 55)];
    assert_eq!(found(&messages), (Ok(Layout::Messages), nodes));
    let far = to(5, &[&integrity(0, u32::MAX), &integrity(1 << 31, 1 << 31)]);
    let nodes = vec![(u64::from(u32::MAX), 13), (1 << 32, 54)];
    assert_eq!(found(&far), (Ok(Layout::Messages), nodes));
    let inside = [&integrity(0, 0)[..], &[7]].concat();
    let with_data = to(5, &[&integrity(0, 0), &data(1, 1, 2, &inside)]);
    let expected = Layout::MessagesAndData {
        chunk: 1,
        time: 2,
        start: 62,
        len: 42,
    };
    assert_eq!(found(&with_data), (Ok(expected), vec![(0, 13)]));
}

#[test]
fn sound_handshakes() {
    let (source, root) = (17, 16);
    for (destination, source, bytes, options) in [
        (0, source, fixed(), Options::Fixed { root }),
        (9, source, fixed(), Options::Fixed { root }),
        (9, 0, vec![255], Options::EndOnly),
        (0, source, vec![255], Options::EndOnly),
        (0, source, vec![0, 2, 255], Options::Other),
    ] {
        let datagram = to(destination, &[&handshake(source, &bytes)]);
        let expected = Layout::HandshakeAlone { source, options };
        assert_eq!(found(&datagram), (Ok(expected), vec![]));
    }
    assert_eq!(to(0, &[&handshake(source, &fixed())]).len(), 60);
}

/// 33: far apart, and with another hash.
#[test]
fn a_node_twice() {
    let mut second = integrity(6, 6);
    second[9] ^= 1;
    let datagram = to(5, &[&integrity(6, 6), &[10], &integrity(0, 3), &second]);
    assert_eq!(found(&datagram), (Err(2), vec![(12, 13), (3, 55)]));
}

/// Nodes past any pack too, of which some have all low bits of another one.
#[test]
fn large_nodes_twice() {
    let chunks = [0, 2, 511, 512, 1_024, 1 << 31, (1 << 31) + 2, u32::MAX];
    let leaves = chunks.map(|chunk| (chunk, chunk));
    let higher = [(0, 511), (512, 1_023), (0, u32::MAX), (1 << 31, u32::MAX)];
    let nodes: Vec<(u32, u32)> = leaves.into_iter().chain(higher).collect();
    let all: Vec<u8> = nodes
        .iter()
        .flat_map(|&(first, last)| integrity(first, last))
        .collect();
    let (layout, numbers) = found(&to(5, &[&all]));
    assert_eq!(layout, Ok(Layout::Messages));
    let expected = nodes
        .iter()
        .map(|&(first, last)| u64::from(first) + u64::from(last));
    assert!(numbers.iter().map(|&(node, _)| node).eq(expected));
    for (first, last) in nodes {
        let again = integrity(first, last);
        assert_eq!(number(&to(5, &[&all, &again])), 2);
        let message = Message::Integrity {
            first,
            last,
            hash: 0,
        };
        assert_eq!(added(&to(5, &[&all]), message, &[9; 32]), Err(2));
    }
}

/// 40 to 43: judged at its place.
#[test]
fn a_handshake_is_alone() {
    let good = handshake(17, &fixed());
    for (messages, expected) in [
        ([&good[..], &[10]], 3),
        ([&good, &[255]], 3),
        ([&good, &[7]], 3),
        ([&good, &good], 3),
        ([&[10], &good], 3),
        ([&[7], &good], 2),
    ] {
        assert_eq!(number(&to(0, &messages)), expected);
    }
    let after_a_node = to(5, &[&integrity(0, 0), &good]);
    assert_eq!(found(&after_a_node), (Err(3), vec![(0, 13)]));
}

/// 37: "message by message from left to right".
#[test]
fn a_node_twice_and_a_handshake() {
    let (node, good) = (integrity(0, 1), handshake(17, &fixed()));
    assert_eq!(number(&to(5, &[&node, &node, &good])), 2);
    assert_eq!(number(&to(5, &[&node, &good, &node])), 3);
    assert_eq!(number(&to(5, &[&good, &node, &node])), 3);
}

/// 44 to 48: "in each 2, then 3".
#[test]
fn faults_of_a_handshake() {
    let unknown = [10, 255];
    for (destination, messages, expected) in [
        (0, [handshake(17, &unknown), vec![10]], 2),
        (5, [vec![10], handshake(17, &[1, 1, 0, 1, 255])], 2),
        (0, [handshake(0, &[255]), vec![]], 3),
        (0, [handshake(0, &fixed()), vec![]], 3),
        (5, [handshake(0, &fixed()), vec![]], 3),
        (5, [handshake(0, &[0, 1, 255]), vec![]], 3),
        (0, [handshake(0, &unknown), vec![]], 2),
        (5, [handshake(0, &[]), vec![]], 2),
    ] {
        let datagram = to(destination, &[&messages[0], &messages[1]]);
        assert_eq!(number(&datagram), expected, "{datagram:?}");
    }
}

/// 36, 39: the whole layout is read whatever destination and ranges are.
#[test]
fn later_numbers_do_not_matter() {
    let datagram = to(0, &[&ranged(3, 0, u32::MAX), &[10]]);
    assert_eq!(number(&datagram), 0);
    assert_eq!(number(&[&datagram[..], &[7]].concat()), 2);
}

#[test]
fn as_many_nodes_as_fit() {
    let all: Vec<u8> = (0..49).flat_map(|chunk| integrity(chunk, chunk)).collect();
    let (layout, nodes) = found(&to(5, &[&all]));
    assert_eq!(layout, Ok(Layout::Messages));
    let expected = (0..49).map(|i| (2 * i, 13 + 41 * i as usize));
    assert!(nodes.into_iter().eq(expected));
    let again = integrity(0, 0);
    assert_eq!(number(&to(5, &[&all[41..], &again])), 0);
    assert_eq!(number(&to(5, &[&all[..48 * 41], &again])), 2);
    assert_eq!(number(&to(5, &[&all, &again])), 1);
}
