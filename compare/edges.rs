//! Lists at each limit and one past it.

use crate::streams::{Owned, pack};

/// A list at a limit or one past it, and what this library is to answer to its first load.
pub struct Limit {
    pub list: Vec<u8>,
    pub refusal: Option<u32>,
}

/// Lists at each limit and one past it.
pub fn limits() -> Vec<Limit> {
    let mut limits = Vec::new();
    let sequence = || Owned { style: 1, flags: 1, ..Owned::bare(packed::SEQUENCE_START) };
    let mapping = || Owned { style: 2, flags: 1, ..Owned::bare(packed::MAPPING_START) };
    let name = |i: usize| format!("n{i}").into_bytes();
    let mut add = |refusal: Option<u32>, inner: Vec<Owned>| {
        let mut events = vec![Owned::bare(packed::STREAM_START), Owned::bare(packed::DOCUMENT_START)];
        events.extend(inner);
        events.extend([Owned::bare(packed::DOCUMENT_END), Owned::bare(packed::STREAM_END)]);
        limits.push(Limit { list: pack(&events), refusal });
    };
    let in_sequence = |inner: Vec<Owned>| {
        let mut events = vec![sequence().tagged(b"t")];
        events.extend(inner);
        events.push(Owned::bare(packed::SEQUENCE_END));
        events
    };
    for (past, over) in [(None, 0), (Some(()), 1)] {
        let refused = |number: u32| past.map(|()| number);
        // nodes, in a sequence and in a mapping, with tags short enough for the text
        add(refused(25), in_sequence((0..4095 + over).map(|_| Owned::scalar(b"").tagged(b"t")).collect()));
        let mut pairs = vec![mapping().tagged(b"t")];
        pairs.extend((0..4094 + 2 * over).map(|_| Owned::scalar(b"").tagged(b"t")));
        pairs.push(Owned::bare(packed::MAPPING_END));
        add(refused(25), pairs);
        // links: aliases to one node; waiting children and placed links together
        let mut aliases = vec![Owned::scalar(b"").anchored(b"a")];
        aliases.extend((0..16383 + over).map(|_| Owned::alias(b"a")));
        add(refused(29), in_sequence(aliases));
        let mut nested = vec![Owned::scalar(b"").anchored(b"a")];
        nested.extend(in_sequence((0..10000).map(|_| Owned::alias(b"a")).collect()));
        nested.extend((0..16384 - 10002 + over).map(|_| Owned::alias(b"a")));
        add(refused(29), in_sequence(nested));
        // text: 15 values of 4096 bytes and the rest in one more, beside the tags
        let mut texts: Vec<Owned> = (0..15).map(|i| Owned::scalar(&vec![i as u8; 4096]).tagged(b"t")).collect();
        texts.push(Owned::scalar(&vec![7; 65536 - 1 - 15 * 4097 - 1 + over]).tagged(b"t"));
        add(refused(26), in_sequence(texts));
        // text: tags alone, the last of a collection
        let mut tags: Vec<Owned> = (0..255).map(|_| Owned::scalar(b"").tagged(&[b't'; 256])).collect();
        tags.push(Owned::bare(packed::MAPPING_START).tagged(&vec![b't'; 255 + over]));
        tags.push(Owned::bare(packed::MAPPING_END));
        add(refused(26), in_sequence(tags));
        // open collections, sequences and mappings
        let mut deep: Vec<Owned> = (0..256 + over).map(|_| sequence()).collect();
        deep.extend((0..256 + over).map(|_| Owned::bare(packed::SEQUENCE_END)));
        add(refused(30), deep);
        let mut deep = Vec::new();
        for _ in 0..256 + over {
            deep.extend([mapping(), Owned::scalar(b"k")]);
        }
        deep.push(Owned::scalar(b"v"));
        deep.extend((0..256 + over).map(|_| Owned::bare(packed::MAPPING_END)));
        add(refused(30), deep);
        // lengths of texts: one past is a fault of the source
        let fault = refused(21);
        add(fault, vec![Owned::scalar(b"v").anchored(&vec![b'a'; 64 + over])]);
        add(fault, in_sequence(vec![Owned::scalar(b"v").anchored(&[b'b'; 64]), Owned::alias(&vec![b'b'; 64 + over])]));
        add(fault, vec![Owned::scalar(b"v").tagged(&vec![b't'; 256 + over])]);
        add(fault, vec![Owned::scalar(&vec![0; 4096 + over])]);
        let mut tagged = in_sequence(vec![]);
        tagged[0].tag = vec![b't'; 256 + over];
        add(fault, tagged);
    }
    // anchors: as many as nodes, so that the nodes' limit is met first
    let anchored = |nodes: usize| (0..nodes).map(|i| Owned::scalar(b"").tagged(b"t").anchored(&name(i))).collect::<Vec<_>>();
    let mut full = in_sequence(anchored(4095));
    full[0].anchor = b"root".to_vec();
    add(None, full);
    let mut past = in_sequence(anchored(4096));
    past[0].anchor = b"root".to_vec();
    add(Some(25), past);
    // the last anchor of a full table named again and again, and an unknown one
    let mut named = anchored(4095);
    named.extend((0..4095).map(|i| Owned::alias(&name(i))));
    add(None, in_sequence(named.clone()));
    named.push(Owned::alias(b"nobody"));
    add(Some(24), in_sequence(named));
    // a known anchor on the last node
    let mut twice = anchored(4094);
    twice.push(Owned::scalar(b"").tagged(b"t").anchored(&name(4093)));
    add(Some(27), in_sequence(twice));
    limits
}
