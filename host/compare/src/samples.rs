//! The worked examples of the documents, typed from their pages.

/// The file of docs/GRAPH_FILES.md.
pub fn four_nodes() -> Vec<u8> {
    bytes(
        "04 00 00 12 00 2E 00 40  00 24 00 64 00 24 00 88
         00 1A 00 00 0E 00 00 00  00 00 02 0C 0D 00 00 00
         03 00 81 00 00 00 FF FF  00 00 00 01 08 00 00 00
         FF FF 00 00 00 02 00 00  00 00 00 00 00 00 02 00
         01 00 04 00 00 00 00 00  02 02 03 00 00 00 02 00
         08 00 00 00 FF FF 00 00  00 02 00 00 00 00 00 00
         00 00 01 00 03 01 00 0F  00 04 00 00 03 06 07 09
         00 00 02 00 00 00 06 00  1F FF FF 00 00 03 00 00
         00 00 00 00 00 00 01 00  05 01 0C F0 04 04 00 00
         00 00 00 00 00 00 01 00  00 00 00 00 00 00 00 00
         01 00",
    )
}

/// The plan of docs/PLANS.md, in which node 0 has the chain 1.
pub fn tag_plan() -> Vec<u8> {
    bytes("01 01 00 00 00 00 00 00 00 00 00 00 00 00 00 00")
}

/// The packet of docs/WALK.md with all four headers.
pub fn four_headers() -> Vec<u8> {
    let mut packet = vec![0; 58];
    for (place, byte) in [(12, 0x81), (16, 0x08), (18, 0x45), (27, 0x06), (50, 0x50)] {
        packet[place] = byte;
    }
    packet
}

/// The other packets of docs/WALK.md, in the order of its table, but for the graph's.
pub fn other_packets() -> Vec<Vec<u8>> {
    let changed = |place: usize, byte: u8| {
        let mut packet = four_headers();
        packet[place] = byte;
        packet
    };
    let mut tagged_arp = four_headers()[..18].to_vec();
    tagged_arp[17] = 0x06;
    let of_type = |length: usize, high: u8, low: u8| {
        let mut packet = vec![0; length];
        packet[12..14].copy_from_slice(&[high, low]);
        packet
    };
    vec![
        changed(24, 0x40),
        changed(25, 0x01),
        four_headers()[..17].to_vec(),
        tagged_arp,
        of_type(14, 0x08, 0x00),
        Vec::new(),
        changed(18, 0x44),
        of_type(60, 0x86, 0xDD),
    ]
}

fn bytes(text: &str) -> Vec<u8> {
    text.split_whitespace()
        .map(|byte| u8::from_str_radix(byte, 16).expect("two digits"))
        .collect()
}
