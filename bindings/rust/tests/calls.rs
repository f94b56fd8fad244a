//! Published packets of both suites both ways, published keystream in stretches, each refusal that a safe call can meet, what a refusal leaves, and what is shown of a session.

use delugash::{find, stretch, Error, Policy, Session, Suite, Way};

/// The master key and salt of RFC 3711's B.3, which RFC 9335's appendix takes.
const KEY: [u8; 16] = *b"\xe1\xf9\x7a\x0d\x3e\x01\x8b\xe0\xd6\x4f\xa3\x2c\x06\xde\x41\x39";
const SALT: [u8; 14] = *b"\x0e\xc6\x75\xad\x49\x8a\xfe\xeb\xb6\x96\x0b\x3a\xab\xe6";
const SSRC: u32 = 0xcafebabe;

/// The master key and salt of RFC 9335's A.2.
const GCM_KEY: [u8; 16] = *b"\x00\x01\x02\x03\x04\x05\x06\x07\x08\x09\x0a\x0b\x0c\x0d\x0e\x0f";
const GCM_SALT: [u8; 12] = *b"\xa0\xa1\xa2\xa3\xa4\xa5\xa6\xa7\xa8\xa9\xaa\xab";

const SUITES: [Suite; 2] = [Suite::CmHmac, Suite::Gcm];

fn session_of(suite: Suite, policy: Policy, way: Way) -> Session {
    let (key, salt) = match suite {
        Suite::CmHmac => (&KEY, &SALT[..]),
        Suite::Gcm => (&GCM_KEY, &GCM_SALT[..]),
    };
    let mut made = Session::new(key, salt, policy, &[1, 3, 4], suite).expect("a session");
    made.add(SSRC, way, 0).expect("a stream");
    made
}

fn session(policy: Policy, way: Way) -> Session {
    session_of(Suite::CmHmac, policy, way)
}

fn hex(text: &str) -> Vec<u8> {
    (0..text.len() / 2)
        .map(|i| u8::from_str_radix(&text[2 * i..2 * i + 2], 16).expect("hex"))
        .collect()
}

/// Policy, packet, and the protected packet as published (RFC 9335, A.1).
const PUBLISHED: [(Policy, &str, &str); 6] = [
    (
        Policy::Cryptex,
        "900f1235decafbadcafebabebede000151000200abababababababababababababababab",
        "900f1235decafbadcafebabec0de0001eb92365251c3e036f8de27e9c27ee3e0b4651d9fbc4218a70244522f34a5",
    ),
    (
        Policy::Cryptex,
        "900f1236decafbadcafebabe1000000105020002abababababababababababababababab",
        "900f1236decafbadcafebabec2de00014ed9cc4e6a712b3096c5ca77339d4204ce0d77396cab69585fbce38194a5",
    ),
    (
        Policy::Cryptex,
        "920f1238decafbadcafebabe0001e2400000b26ebede000151000200abababababababababababababababab",
        "920f1238decafbadcafebabe8bb6e12b5cff16ddc0de000192838c8c09e58393e1de3a9a74734d6745671338c3acf11da2df8423bee0",
    ),
    (
        Policy::Cryptex,
        "920f1239decafbadcafebabe0001e2400000b26e1000000105020002abababababababababababababababab",
        "920f1239decafbadcafebabef70e513eb90b9b25c2de0001bbed4848faa644665f3d7f34125914e9f4d0ae923c6f479b95a0f7b53133",
    ),
    (
        Policy::Cryptex,
        "920f123adecafbadcafebabe0001e2400000b26ebede0000abababababababababababababababab",
        "920f123adecafbadcafebabe7130b6abfe2ab0e3c0de0000e3d9f64b25c9e74cb4cf8e43fb92e3781c2c0ceab6b3a499a14c",
    ),
    (
        Policy::Cryptex,
        "920f123bdecafbadcafebabe0001e2400000b26e10000000abababababababababababababababab",
        "920f123bdecafbadcafebabecbf24c124330e1c8c2de0000599dd45bc9d687b603e8b59d771fd38e88b170e0cd31e125eabe",
    ),
];

#[test]
fn published_packets_both_ways() {
    for (policy, plain, wire) in PUBLISHED {
        let (plain, wire) = (hex(plain), hex(wire));
        let mut buf = plain.clone();
        buf.resize(plain.len() + delugash::ROOM, 0x55);
        let sent = session(policy, Way::Sending)
            .protect(&mut buf, plain.len())
            .expect("protected");
        assert_eq!(buf[..sent], wire);
        assert!(
            buf[sent..].iter().all(|b| *b == 0x55),
            "the bytes after the packet stay"
        );
        let length = session(policy, Way::Receiving)
            .unprotect(&mut buf, sent)
            .expect("given back");
        assert_eq!(buf[..length], plain);
        assert_eq!(buf[length..sent], wire[length..], "the tag stays");
    }
}

/// RFC 9335, A.2.1 to A.2.6: packet, and the protected packet.
const GCM_PUBLISHED: [(&str, &str); 6] = [
    (
        "900f1235decafbadcafebabebede000151000200abababababababababababababababab",
        "900f1235decafbadcafebabec0de000139972dc9572c4d99e8fc355de743fb2e94f9d8ff54e72f4193bbc5c74ffab0fa9fa0fbeb",
    ),
    (
        "900f1236decafbadcafebabe1000000105020002abababababababababababababababab",
        "900f1236decafbadcafebabec2de0001bb75a4c545cd1f413bdb7daa2b1e3263de313667c963249081b35a65f5cb6c88b394235f",
    ),
    (
        "920f1238decafbadcafebabe0001e2400000b26ebede000151000200abababababababababababababababab",
        "920f1238decafbadcafebabe63bbccc4a7f695c4c0de00018ad7c71fac70a80c92866b4c6ba98546ef913586e95ffaaffe956885bb0647a8bc094ac8",
    ),
    (
        "920f1239decafbadcafebabe0001e2400000b26e1000000105020002abababababababababababababababab",
        "920f1239decafbadcafebabe3680524f8d312b00c2de0001c78d120038422bc111a7187a18246f980c059cc6bc9df8b626394eca344e4b05d80fea83",
    ),
    (
        "920f123adecafbadcafebabe0001e2400000b26ebede0000abababababababababababababababab",
        "920f123adecafbadcafebabe15b6bb4337906fffc0de0000b7b964537a2b03ab7ba5389ce93317126b5d974df30c6884dcb651c5e120c1da",
    ),
    (
        "920f123bdecafbadcafebabe0001e2400000b26e10000000abababababababababababababababab",
        "920f123bdecafbadcafebabedcb38c9e48bf95f4c2de000061ee432cf920317076613258d3ce4236c06ac429681ad08413512dc98b5207d8",
    ),
];

/// A packet without contributors and extension under the same key and salt, as libsrtp sends it.
const GCM_BARE: (&str, &str) = (
    "800f1234decafbadcafebabeabababababababababababababababab",
    "800f1234decafbadcafebabec5002ede04cfdd2eb91159e0880aa06ed2976826f796b201df3131a127e8a392",
);

/// One after another through the same two sessions.
#[test]
fn published_gcm_packets_both_ways() {
    for policy in [Policy::Cryptex, Policy::CryptexRequired] {
        let mut sender = session_of(Suite::Gcm, policy, Way::Sending);
        let mut receiver = session_of(Suite::Gcm, policy, Way::Receiving);
        for (plain, wire) in [GCM_BARE].into_iter().chain(GCM_PUBLISHED) {
            let (plain, wire) = (hex(plain), hex(wire));
            let mut buf = plain.clone();
            buf.resize(plain.len() + delugash::ROOM, 0x55);
            assert_eq!(sender.protect(&mut buf, plain.len()), Ok(wire.len()));
            assert_eq!(buf[..wire.len()], wire);
            assert_eq!(receiver.unprotect(&mut buf, wire.len()), Ok(plain.len()));
            assert_eq!(buf[..plain.len()], plain);
            assert_eq!(buf[plain.len()..wire.len()], wire[plain.len()..], "the tag stays");
            assert!(
                buf[wire.len()..].iter().all(|b| *b == 0x55),
                "the bytes after the packet stay"
            );
            buf[..wire.len()].copy_from_slice(&wire);
            assert_eq!(receiver.unprotect(&mut buf, wire.len()), Err(Error::Repeat));
        }
    }
    let mut plain = hex(GCM_BARE.0);
    plain.resize(44, 0);
    assert_eq!(
        session_of(Suite::Gcm, Policy::Plain, Way::Sending).protect(&mut plain, 28),
        Ok(44)
    );
    assert_eq!(
        plain,
        hex(GCM_BARE.1),
        "without anything to hide, policy 0 sends the same"
    );
}

/// A wrong bit anywhere is refused and changes nothing: the right packet is taken after all of them.
#[test]
fn every_bit_counts() {
    let published = [(Suite::CmHmac, PUBLISHED[2].2), (Suite::CmHmac, PUBLISHED[5].2)]
        .into_iter()
        .chain(GCM_PUBLISHED.map(|(_, wire)| (Suite::Gcm, wire)));
    for (suite, wire) in published {
        let wire = hex(wire);
        let mut receiver = session_of(suite, Policy::Cryptex, Way::Receiving);
        for bit in 0..8 * wire.len() {
            let mut forged = wire.clone();
            forged[bit / 8] ^= 1 << (bit % 8);
            let mut buf = forged.clone();
            let answer = receiver.unprotect(&mut buf, wire.len());
            assert!(answer.is_err(), "bit {bit}");
            if bit / 8 >= wire.len() - suite.tag_length() {
                assert_eq!(answer, Err(Error::Tag), "bit {bit}");
            }
            assert_eq!(buf, forged, "a refusal leaves the buffer");
        }
        let mut buf = wire.clone();
        assert_eq!(
            receiver.unprotect(&mut buf, wire.len()),
            Ok(wire.len() - suite.tag_length())
        );
    }
}

/// A packet of zeros with this first byte, in a buffer of this length.
fn zeros(first: u8, length: usize) -> Vec<u8> {
    let mut buf = vec![0; length];
    buf[0] = first;
    buf[8..12].copy_from_slice(&SSRC.to_be_bytes());
    buf
}

#[test]
fn limits_follow_the_suite() {
    for suite in SUITES {
        let tag = suite.tag_length();
        let sent = |policy: Policy, first: u8, n: usize, room: usize| {
            session_of(suite, policy, Way::Sending).protect(&mut zeros(first, room), n)
        };
        // without and with the block that Cryptex adds beside contributors
        for (first, growth) in [(0x80, tag), (0x81, tag + 4)] {
            assert!(growth <= delugash::ROOM);
            assert_eq!(sent(Policy::Cryptex, first, 100, 100 + growth), Ok(100 + growth));
            assert_eq!(sent(Policy::Cryptex, first, 100, 99 + growth), Err(Error::Room));
            assert_eq!(sent(Policy::Cryptex, first, 2048 - growth, 2048), Ok(2048));
            assert_eq!(sent(Policy::Cryptex, first, 2049 - growth, 4096), Err(Error::Large));
        }
        // one contributor and no payload: 16 bytes and the tag
        let mut buf = zeros(0x81, 16 + tag);
        assert_eq!(
            session_of(suite, Policy::Plain, Way::Sending).protect(&mut buf, 16),
            Ok(16 + tag)
        );
        let mut receiver = session_of(suite, Policy::Plain, Way::Receiving);
        assert_eq!(receiver.unprotect(&mut buf, 11 + tag), Err(Error::Short));
        assert_eq!(receiver.unprotect(&mut buf, 12 + tag), Err(Error::Header));
        assert_eq!(receiver.unprotect(&mut buf, 15 + tag), Err(Error::Header));
        assert_eq!(receiver.unprotect(&mut buf, 16 + tag), Ok(16));
        assert_eq!(receiver.unprotect(&mut zeros(0x80, 2049), 2049), Err(Error::Large));
        assert_eq!(receiver.unprotect(&mut zeros(0x80, 2049), 2048), Err(Error::Repeat));
    }
    assert_eq!(delugash::ROOM, Suite::Gcm.tag_length() + 4);
}

/// Also where both derive the same cipher key: the first suite's salt is GCM's and two zeros.
#[test]
fn crossed_suites_are_refused() {
    let mut longer = [0; 14];
    longer[..12].copy_from_slice(&GCM_SALT);
    let made = |suite: Suite, way: Way| {
        let salt = &longer[..suite.salt_length()];
        let mut made = Session::new(&GCM_KEY, salt, Policy::Cryptex, &[], suite).expect("a session");
        made.add(SSRC, way, 0).expect("a stream");
        made
    };
    for (suite, other) in [(Suite::CmHmac, Suite::Gcm), (Suite::Gcm, Suite::CmHmac)] {
        let plain = hex(GCM_PUBLISHED[2].0);
        let mut buf = plain.clone();
        buf.resize(plain.len() + delugash::ROOM, 0);
        let sent = made(suite, Way::Sending)
            .protect(&mut buf, plain.len())
            .expect("protected");
        let wire = buf.clone();
        assert_eq!(made(other, Way::Receiving).unprotect(&mut buf, sent), Err(Error::Tag));
        assert_eq!(buf, wire, "a refusal leaves the buffer");
        assert_eq!(made(suite, Way::Receiving).unprotect(&mut buf, sent), Ok(plain.len()));
        assert_eq!(buf[..plain.len()], plain);
    }
}

#[test]
fn a_packet_is_given_back_once() {
    let (_, _, wire) = PUBLISHED[0];
    let mut receiver = session(Policy::Cryptex, Way::Receiving);
    let wire = hex(wire);
    let mut buf = wire.clone();
    buf[20] ^= 1;
    let forged = buf.clone();
    assert_eq!(receiver.unprotect(&mut buf, wire.len()), Err(Error::Tag));
    assert_eq!(buf, forged, "a refusal leaves the buffer");
    buf.copy_from_slice(&wire);
    assert_eq!(receiver.unprotect(&mut buf, wire.len()), Ok(36));
    buf.copy_from_slice(&wire);
    assert_eq!(receiver.unprotect(&mut buf, wire.len()), Err(Error::Repeat));
    assert_eq!(buf, wire);
}

#[test]
fn refusals_of_making_and_adding() {
    for suite in SUITES {
        let refused = |key: usize, salt: usize, policy: Policy| {
            Session::new(&[0; 17][..key], &[0; 15][..salt], policy, &[], suite).err()
        };
        for key in [0, 15, 16, 17] {
            for salt in [0, 11, 12, 13, 14, 15] {
                let right = key == 16 && salt == suite.salt_length();
                assert_eq!(
                    refused(key, salt, Policy::Plain),
                    (!right).then_some(Error::Keys),
                    "{suite:?}, key of {key}, salt of {salt}"
                );
            }
        }
        let mask = (suite == Suite::Gcm).then_some(Error::Policy);
        assert_eq!(refused(16, suite.salt_length(), Policy::Mask), mask);
        assert_eq!(refused(16, 13, Policy::Mask), Some(Error::Keys), "this comes before");
    }
    let mut made = session(Policy::Plain, Way::Sending);
    assert_eq!(made.add(SSRC, Way::Receiving, 0), Err(Error::Twice));
    for ssrc in 0..31 {
        assert_eq!(made.add(ssrc, Way::Receiving, ssrc), Ok(()));
    }
    assert_eq!(made.add(31, Way::Sending, 0), Err(Error::Full));
}

#[test]
fn refusals_of_packets() {
    let mut sender = session(Policy::Plain, Way::Sending);
    let packet = hex("800f1234decafbadcafebabeabab");
    let mut buf = packet.clone();
    buf.resize(24, 0);
    assert_eq!(sender.protect(&mut buf, 25), Err(Error::Length));
    assert_eq!(sender.protect(&mut buf, usize::MAX), Err(Error::Length));
    assert_eq!(sender.protect(&mut buf, 11), Err(Error::Short));
    assert_eq!(sender.protect(&mut [], 0), Err(Error::Short));
    assert_eq!(sender.protect(&mut buf[..23], 14), Err(Error::Room));
    let mut other = buf.clone();
    other[11] = 0;
    assert_eq!(sender.protect(&mut other, 14), Err(Error::Stream));
    other[0] = 0x40;
    assert_eq!(sender.protect(&mut other, 14), Err(Error::Version));
    assert_eq!(sender.protect(&mut buf, 14), Ok(24));
    buf[..14].copy_from_slice(&packet);
    assert_eq!(sender.protect(&mut buf, 14), Err(Error::Order));
    let mut large = vec![0u8; 4096];
    large[..12].copy_from_slice(&packet[..12]);
    assert_eq!(sender.protect(&mut large, 2039), Err(Error::Large));
}

#[test]
fn elements_are_parts_of_the_packet() {
    let packet = hex("900f1234decafbadcafebabebede000617414273a475262748220000c8308e4655996386b395fb00");
    let part = find(&packet, 1).expect("element 1");
    assert_eq!(part, hex("414273a475262748"));
    assert_eq!(
        part.as_ptr(),
        packet[17..].as_ptr(),
        "a slice of the caller's packet, not a copy"
    );
    assert_eq!(find(&packet, 2), Ok(&hex("0000c8")[..]));
    assert_eq!(find(&packet, 5), Err(Error::Absent));
    assert_eq!(find(&packet[..11], 1), Err(Error::Short));
}

/// RFC 3711, B.2: session key and salt, and of the keystream for SSRC 0 and index 0 the blocks 0 to 2 and 65279 to 65281.
const STREAM_KEY: [u8; 16] = *b"\x2b\x7e\x15\x16\x28\xae\xd2\xa6\xab\xf7\x15\x88\x09\xcf\x4f\x3c";
const STREAM_SALT: [u8; 14] = *b"\xf0\xf1\xf2\xf3\xf4\xf5\xf6\xf7\xf8\xf9\xfa\xfb\xfc\xfd";
const STREAM: [(u64, &str); 2] = [
    (
        0,
        "e03ead0935c95e80e166b16dd92b4eb4d23513162b02d0f72a43a2fe4a5f97ab41e95b3bb0a2e8dd477901e4fca894c0",
    ),
    (
        65279 * 16,
        "ec8cdf7398607cb0f2d21675ea9ea1e4362b7c3c6773516318a077d7fc5073ae6a2cc3787889374fbeb4c81b17ba6c44",
    ),
];

#[test]
fn neighbouring_stretches_join() {
    for (start, published) in STREAM {
        for cut in 0..=48 {
            let mut buf = [0u8; 48];
            let (front, back) = buf.split_at_mut(cut);
            assert_eq!(
                stretch(&STREAM_KEY, &STREAM_SALT, 0, 0, start + cut as u64, back),
                Ok(())
            );
            assert_eq!(stretch(&STREAM_KEY, &STREAM_SALT, 0, 0, start, front), Ok(()));
            assert_eq!(buf[..], hex(published), "cut at {cut}");
        }
    }
}

/// RFC 3711's equation has the upper bits of an index above 2^48 meet the SSRC's lower ones: where the two are equal, they cancel each other.
#[test]
fn any_index_has_a_stretch() {
    for high in [1u64, 2, 0x1234, 0xffff] {
        let mut buf = [0u8; 48];
        assert_eq!(
            stretch(
                &STREAM_KEY,
                &STREAM_SALT,
                high as u32,
                high << 48,
                STREAM[1].0,
                &mut buf
            ),
            Ok(())
        );
        assert_eq!(buf[..], hex(STREAM[1].1));
    }
}

/// RFC 9335, A.1.3, under the session key and salt of RFC 3711's B.3: contributors, and then block and payload, the extension header left out.
#[test]
fn a_packet_in_two_stretches() {
    let key = *b"\xc6\x1e\x7a\x93\x74\x4f\x39\xee\x10\x73\x4a\xfe\x3f\xf7\xa0\x87";
    let salt = *b"\x30\xcb\xbc\x08\x86\x3d\x8c\x85\xd4\x9d\xb3\x4a\x9a\xe1";
    let (plain, wire) = (hex(PUBLISHED[2].1), hex(PUBLISHED[2].2));
    let mut packet = plain;
    assert_eq!(stretch(&key, &salt, SSRC, 0x1238, 8, &mut packet[24..]), Ok(()));
    assert_eq!(stretch(&key, &salt, SSRC, 0x1238, 0, &mut packet[12..20]), Ok(()));
    assert_eq!(packet[12..20], wire[12..20]);
    assert_eq!(packet[24..], wire[24..wire.len() - 10]);
}

#[test]
fn refusals_of_stretches() {
    const END: u64 = 1 << 20;
    for start in [END - 47, END, END + 1, u64::MAX - 48, u64::MAX - 47, u64::MAX] {
        let mut buf = [0xab; 48];
        assert_eq!(
            stretch(&STREAM_KEY, &STREAM_SALT, 0, 0, start, &mut buf),
            Err(Error::Large),
            "start {start}"
        );
        assert_eq!(buf, [0xab; 48]);
    }
    let mut last = [0xab; 48];
    assert_eq!(stretch(&STREAM_KEY, &STREAM_SALT, 0, 0, END - 48, &mut last), Ok(()));
    assert_ne!(last, [0xab; 48]);
    assert_eq!(stretch(&STREAM_KEY, &STREAM_SALT, 0, 0, END - 48, &mut last), Ok(()));
    assert_eq!(last, [0xab; 48]);
    assert_eq!(stretch(&STREAM_KEY, &STREAM_SALT, 0, 0, END, &mut []), Ok(()));
    assert_eq!(
        stretch(&STREAM_KEY, &STREAM_SALT, 0, 0, END + 1, &mut []),
        Err(Error::Large)
    );
}

#[test]
fn numbers_are_document_01s() {
    assert_eq!(Error::Length.number(), 1);
    assert_eq!(Error::Tag.number(), 14);
    assert_eq!(Error::Absent.number(), 19);
    assert_eq!(Error::Repeat.to_string(), "refused with 13 (Repeat)");
}

#[test]
fn clones_and_threads() {
    let mut sender = session(Policy::Plain, Way::Sending);
    let mut copy = sender.clone();
    let packet = hex("800f1234decafbadcafebabeabab00000000000000000000");
    let mut first = packet.clone();
    let sent = sender.protect(&mut first, 14).expect("protected");
    let second = std::thread::spawn(move || {
        let mut buf = packet;
        copy.protect(&mut buf, 14).map(|n| buf[..n].to_vec())
    });
    assert_eq!(second.join().expect("no panic").expect("protected"), first[..sent]);
}

#[test]
fn refusals_of_headers() {
    let sent = |policy: Policy, packet: &str| {
        let mut buf = hex(packet);
        let n = buf.len();
        buf.resize(n + delugash::ROOM, 0);
        session(policy, Way::Sending).protect(&mut buf, n)
    };
    // a block of two words where one is left, a tag that Cryptex cannot carry, and an element of two bytes where one is left
    assert_eq!(
        sent(Policy::Plain, "900f1234decafbadcafebabebede000200000000"),
        Err(Error::Header)
    );
    assert_eq!(
        sent(Policy::Cryptex, "900f1234decafbadcafebabe1001000100000000"),
        Err(Error::Profile)
    );
    assert_eq!(
        sent(Policy::Mask, "900f1234decafbadcafebabebede000100001100"),
        Err(Error::Element)
    );
    assert_eq!(sent(Policy::Mask, "900f1234decafbadcafebabebede000100110000"), Ok(30));
}

/// RFC 9335, A.1.5, without its empty block, X = 0 and CC = 2, and as plain SRTP sends it: the RFC's plain and protected packet
/// give the keystream, its authentication key the tag. Then the same without contributors.
const IN_CLEAR: (&str, &str) = (
    "820f123adecafbadcafebabe0001e2400000b26eabababababababababababababababab",
    "820f123adecafbadcafebabe0001e2400000b26eda9aff405581a926e3d9f64b25c9e74caed0dd3d9c17cbe189f5",
);
const BARE: (&str, &str) = (
    "800f123adecafbadcafebabeabababababababababababababababab",
    "800f123adecafbadcafebabeda9aff405581a926e3d9f64b25c9e74c29365631a1a5a704453a",
);

#[test]
fn required_means_required() {
    let (plain, wire) = (hex(IN_CLEAR.0), hex(IN_CLEAR.1));
    for policy in [Policy::Plain, Policy::Cryptex, Policy::Mask] {
        let mut buf = wire.clone();
        assert_eq!(session(policy, Way::Receiving).unprotect(&mut buf, 46), Ok(36));
        assert_eq!(buf[..36], plain);
    }
    let mut required = session(Policy::CryptexRequired, Way::Receiving);
    let mut buf = wire.clone();
    assert_eq!(required.unprotect(&mut buf, 46), Err(Error::Profile));
    assert_eq!(
        required.unprotect(&mut buf, 29),
        Err(Error::Header),
        "this comes before"
    );
    assert_eq!(buf, wire, "a refusal leaves the buffer");
    // Cryptex's packet of the same index: the refused one moved nothing
    let (_, given_back, sent) = PUBLISHED[4];
    let mut buf = hex(sent);
    assert_eq!(required.unprotect(&mut buf, 50), Ok(40));
    assert_eq!(buf[..40], hex(given_back));
    let mut required = session(Policy::CryptexRequired, Way::Receiving);
    let mut bare = hex(BARE.1);
    assert_eq!(required.unprotect(&mut bare, 38), Ok(28), "with neither it is taken");
    assert_eq!(bare[..28], hex(BARE.0));
}

#[test]
fn refusals_of_indices() {
    let packet = |sequence: u16| {
        let mut buf = hex("800f0000decafbadcafebabeabab00000000000000000000");
        buf[2..4].copy_from_slice(&sequence.to_be_bytes());
        buf
    };
    let mut sender = Session::new(&KEY, &SALT, Policy::Plain, &[], Suite::CmHmac).expect("a session");
    let mut receiver = sender.clone();
    sender.add(SSRC, Way::Sending, u32::MAX).expect("a stream");
    receiver.add(SSRC, Way::Receiving, u32::MAX).expect("a stream");
    let (mut first, mut last) = (packet(65471), packet(65535));
    assert_eq!(sender.protect(&mut first, 14), Ok(24));
    assert_eq!(sender.protect(&mut last, 14), Ok(24));
    assert_eq!(sender.protect(&mut packet(0), 14), Err(Error::Worn));
    assert_eq!(receiver.unprotect(&mut last, 24), Ok(14));
    assert_eq!(receiver.unprotect(&mut first, 24), Err(Error::Old));
}

#[test]
fn a_session_shows_no_key() {
    let made = session(Policy::Mask, Way::Sending);
    for shown in [format!("{made:?}"), format!("{made:#?}")] {
        assert!(shown.starts_with("Session"));
        let words = KEY
            .chunks(8)
            .chain(SALT.chunks(8))
            .map(|part| part.iter().fold(0u64, |n, b| n << 8 | u64::from(*b)));
        let bytes = KEY.iter().chain(&SALT).map(|b| u64::from(*b));
        for secret in words.chain(bytes) {
            assert!(!shown.contains(&secret.to_string()), "{secret} in {shown}");
            assert!(!shown.contains(&format!("{secret:02x}")), "{secret:02x} in {shown}");
        }
    }
}
