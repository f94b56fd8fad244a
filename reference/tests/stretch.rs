//! Change request 6 through the line `stretch`: published keystreams and packets, both sides of the
//! keystream's end, neighbours. Where nothing is published, the expected bytes come from `slow`,
//! which lays the counter block out byte by byte and uses the cipher alone.

use reference::aes::Aes;
use reference::hex;
use reference::random::dice::Dice;
use reference::random::pieces;
use reference::random::stage::Stage;
use reference::script::Desk;

const VECTORS: &str = include_str!("vectors.txt");
const RFC_9335: &str = include_str!("rfc9335.txt");
/// The end of the keystream, 2^20.
const END: u64 = 1_048_576;

fn answer(line: &str) -> String {
    String::from_utf8(Desk::default().answer(line.as_bytes()).unwrap()).unwrap()
}

fn bytes(word: &str) -> Vec<u8> {
    hex::read(word.as_bytes(), 4_096).unwrap()
}

/// The words after the first one, of every line that starts with this word.
fn lines_of(text: &'static str, kind: &str) -> Vec<Vec<&'static str>> {
    let lines = text.lines().map(|line| line.split(' ').collect::<Vec<_>>());
    lines.filter(|words| words[0] == kind).map(|words| words[1..].to_vec()).collect()
}

/// RFC 3711 B.2's session key and salt; its SSRC and index are 0.
fn b2() -> String {
    let common = lines_of(VECTORS, "cm").remove(0);
    assert_eq!(common, ["2b7e151628aed2a6abf7158809cf4f3c", "f0f1f2f3f4f5f6f7f8f9fafbfcfd"]);
    format!("{} {} 00000000 0", common[0], common[1])
}

/// RFC 3711 B.2's blocks, three from 0 on and three from 65,279 on, each with its first byte.
fn b2_neighbours() -> [(u64, Vec<u8>); 2] {
    let blocks: Vec<(u64, Vec<u8>)> = lines_of(VECTORS, "cm-block")
        .iter()
        .map(|words| (words[0].parse().unwrap(), bytes(words[1])))
        .collect();
    let numbers: Vec<u64> = blocks.iter().map(|(number, _)| *number).collect();
    assert_eq!(numbers, [0, 1, 2, 65_279, 65_280, 65_281]);
    let joined = |three: &[(u64, Vec<u8>)]| {
        let stream = three.iter().flat_map(|(_, block)| block.clone()).collect();
        (16 * three[0].0, stream)
    };
    [joined(&blocks[..3]), joined(&blocks[3..])]
}

/// The keystream itself: what it makes of zero bytes.
fn keystream(common: &str, start: u64, length: usize) -> String {
    let zeros = hex::write(&vec![0; length]);
    answer(&format!("stretch {common} {start} {zeros}"))
}

#[test]
fn blocks_of_rfc_3711_b2() {
    for (words, start) in
        lines_of(VECTORS, "cm-block").iter().zip([0, 16, 32, 1_044_464, 1_044_480, 1_044_496])
    {
        assert_eq!(keystream(&b2(), start, 16), format!("0 {}", words[1]));
        // Over data, and over its own result.
        let data = "00112233445566778899aabbccddeeff";
        let there = answer(&format!("stretch {} {start} {data}", b2()));
        let expected: Vec<u8> =
            bytes(words[1]).iter().zip(bytes(data)).map(|(key, byte)| key ^ byte).collect();
        assert_eq!(there, format!("0 {}", hex::write(&expected)));
        assert_eq!(
            answer(&format!("stretch {} {start} {}", b2(), &there[2..])),
            format!("0 {data}")
        );
    }
}

/// Every stretch inside the three neighbours, so from and to every place of a block.
#[test]
fn stretches_of_rfc_3711_b2() {
    for (start, stream) in b2_neighbours() {
        for from in 0..=48 {
            for to in from..=48 {
                let answered = keystream(&b2(), start + from as u64, to - from);
                assert_eq!(answered, format!("0 {}", hex::write(&stream[from..to])));
            }
        }
    }
}

/// The three neighbours over data, joined and in two and three pieces.
#[test]
fn neighbours_of_rfc_3711_b2() {
    let data: Vec<u8> = (100..148).collect();
    for (start, stream) in b2_neighbours() {
        let expected: Vec<u8> = data.iter().zip(&stream).map(|(byte, key)| byte ^ key).collect();
        for first in 0..=48 {
            for second in [first, first.max(16), first.max(25), 48] {
                let mut joined = Vec::new();
                for (from, to) in [(0, first), (first, second), (second, 48)] {
                    let piece = hex::write(&data[from..to]);
                    let line = format!("stretch {} {} {piece}", b2(), start + from as u64);
                    joined.extend(bytes(answer(&line).strip_prefix("0 ").unwrap()));
                }
                assert_eq!(joined, expected, "{start} {first} {second}");
            }
        }
    }
}

/// RFC 6904 A.2's second keystream, with the published header key and salt of A.1.
#[test]
fn header_keystream_of_rfc_6904() {
    let common = "549752054d6fb708622c4a2e596a1b93 ab01818174c40d39a3781f7c2d27 cafebabe 4660";
    let stream = "1e19c8e1d481c779549ed1617aaa1b7afc0d933ae7ed6cc8";
    assert_eq!(keystream(common, 0, 24), format!("0 {stream}"));
    for from in 0..24 {
        assert_eq!(keystream(common, from as u64, 24 - from), format!("0 {}", &stream[2 * from..]));
    }
}

/// RFC 9335 A.1's packets with the published session key and salt: contributors from byte 0 on,
/// what is behind the extension header from where they ended, and all of it in single bytes.
#[test]
fn front_and_back_of_rfc_9335() {
    let word = |kind: &str| lines_of(RFC_9335, kind)[0][0];
    let keys = format!("{} {} cafebabe", word("session-key"), word("session-salt"));
    let packets = lines_of(RFC_9335, "packet");
    assert_eq!(packets.len(), 6);
    for words in packets {
        let (plain, wire) = (bytes(words[1]), bytes(words[2]));
        let index = u16::from_be_bytes([plain[2], plain[3]]);
        let contributors = 4 * usize::from(plain[0] & 15);
        let front = 12..12 + contributors;
        let back = 16 + contributors..plain.len();
        let line = |start: usize, place: std::ops::Range<usize>| {
            answer(&format!("stretch {keys} {index} {start} {}", hex::write(&plain[place])))
        };
        assert_eq!(line(0, front.clone()), format!("0 {}", hex::write(&wire[front.clone()])));
        let expected = format!("0 {}", hex::write(&wire[back.clone()]));
        assert_eq!(line(contributors, back.clone()), expected);
        for (start, place) in front.chain(back).enumerate() {
            assert_eq!(line(start, place..place + 1), format!("0 {:02x}", wire[place]));
        }
    }
}

/// Packets of libsrtp: the payload under the derived key and salt of RFC 3711 B.3.
#[test]
fn payloads_of_libsrtp() {
    let keys = "c61e7a93744f39ee10734afe3ff7a087 30cbbc08863d8c85d49db34a9ae1 cafebabe";
    for (words, begin) in lines_of(VECTORS, "srtp").iter().zip([12, 40]) {
        let (plain, wire) = (bytes(words[1]), bytes(words[2]));
        for cut in begin..=plain.len() {
            for (from, to) in [(begin, cut), (cut, plain.len())] {
                let data = hex::write(&plain[from..to]);
                let line = format!("stretch {keys} 4660 {} {data}", from - begin);
                assert_eq!(answer(&line), format!("0 {}", hex::write(&wire[from..to])));
            }
        }
    }
}

/// The random scene `pieces`: what each stretch reads stands in the plain packet, and what it writes
/// stands in the same place of the packet that protect gave. Two bytes or less may stand anywhere.
#[test]
fn pieces_of_sent_packets() {
    let mut script = Vec::new();
    let mut stage = Stage::new(13, 5_000, &mut script);
    while stage.is_open() {
        stage.case("pieces");
        let _ = pieces::pieces(&mut stage);
    }
    let (mut desk, mut sent, mut pieces) = (Desk::default(), None, 0);
    for line in String::from_utf8_lossy(&script).split('\n') {
        let Some(answered) = desk.answer(line.as_bytes()) else {
            continue;
        };
        let answered = String::from_utf8_lossy(&answered).into_owned();
        let before = line.rsplit(' ').next().unwrap_or_default().to_string();
        let after = answered.rsplit(' ').next().unwrap_or_default().to_string();
        if answered.starts_with("0 ") && line.starts_with("protect ") {
            sent = Some((before, after));
        } else if answered.starts_with("0 ") && line.starts_with("stretch ") && before.len() > 4 {
            let (plain, wire) = sent.as_ref().unwrap();
            // An added block moves what is behind the contributors by four bytes.
            let mut places = plain.match_indices(&before).map(|(place, _)| place);
            assert!(places
                .any(|place| wire[place..].starts_with(&after)
                    || wire[place + 8..].starts_with(&after)));
            pieces += 1;
        }
    }
    assert!(pieces > 500, "{pieces}");
}

/// Byte k of the keystream: salt at bytes 0 to 13, SSRC over bytes 4 to 7, index over bytes 8 to 13,
/// the block's number at bytes 14 and 15.
fn slow(key: &[u8; 16], salt: &[u8; 14], ssrc: u32, index: u64, k: u64) -> u8 {
    let mut counter = [0; 16];
    counter[..14].copy_from_slice(salt);
    for (place, byte) in ssrc.to_be_bytes().iter().enumerate() {
        counter[4 + place] ^= byte;
    }
    for (place, byte) in index.to_be_bytes()[2..].iter().enumerate() {
        counter[8 + place] ^= byte;
    }
    counter[14..].copy_from_slice(&u16::try_from(k / 16).unwrap().to_be_bytes());
    Aes::new(key).encrypt(&counter)[k as usize % 16]
}

/// Random and extreme keys, salts, SSRCs and indices, from places all over the keystream.
#[test]
fn bytes_of_any_keystream() {
    let mut dice = Dice::new(11);
    for round in 0..200 {
        let same = dice.pick(&[0, 0xff, 0x80]);
        let key = if round % 5 == 0 { vec![same; 16] } else { dice.bytes(16) };
        let salt = if round % 3 == 0 { vec![same; 14] } else { dice.bytes(14) };
        let any = dice.number_32();
        let ssrc = dice.pick(&[0, 1, u32::MAX, any, any]);
        let any = dice.below(1 << 48);
        let index = dice.pick(&[0, 1, 65_535, 65_536, (1 << 48) - 1, any, any]);
        let (any, length) = (dice.below(END - 100), dice.size(0, 50));
        let start = dice.pick(&[0, 1, 4_095, 4_096, 1_044_479, END - length as u64, any, any]);
        let data = dice.bytes(length);
        let (key, salt) = (key.try_into().unwrap(), salt.try_into().unwrap());
        let mut expected = data.clone();
        for (place, byte) in expected.iter_mut().enumerate() {
            *byte ^= slow(&key, &salt, ssrc, index, start + place as u64);
        }
        let (key, salt, data) = (hex::write(&key), hex::write(&salt), hex::write(&data));
        let line = format!("stretch {key} {salt} {ssrc:08x} {index} {start} {data}");
        assert_eq!(answer(&line), format!("0 {}", hex::write(&expected)), "{line}");
    }
}

/// Both sides of 2^20. A refusal writes the data back as it came.
#[test]
fn a_stretch_ends_at_2_to_the_20() {
    let b2 = b2();
    for length in [1, 2, 15, 16, 17, 100, 4_095, 4_096] {
        let data = hex::write(&vec![0xa5; length]);
        let last = END - length as u64;
        for start in [last - 1, last] {
            let answered = answer(&format!("stretch {b2} {start} {data}"));
            assert!(answered.starts_with("0 ") && answered.len() == data.len() + 2);
            assert_ne!(answered[2..], data);
        }
        for start in [last + 1, last + 2, END - 1, END, END + 1] {
            if start > last {
                assert_eq!(answer(&format!("stretch {b2} {start} {data}")), format!("7 {data}"));
            }
        }
    }
}

/// No bytes: taken up to 2^20, also where nothing is left and the counter block is the last one there
/// is; LARGE behind it.
#[test]
fn no_bytes() {
    let ones = format!("{} {} 00000000 0", "ff".repeat(16), "ff".repeat(14));
    for common in [&b2(), &ones] {
        for start in [0, 1, 16, 17, END - 16, END - 1, END] {
            assert_eq!(answer(&format!("stretch {common} {start} -")), "0 -");
        }
        for start in [END + 1, END + 16, 2 * END, 1 << 32, 1 << 63, u64::MAX - 1, u64::MAX] {
            assert_eq!(answer(&format!("stretch {common} {start} -")), "7 -");
        }
    }
}

/// Starts that are small when cut to fewer bits, and sums that do not fit 64.
#[test]
fn far_starts() {
    let b2 = b2();
    for length in [1, 16, 17, 4_096] {
        let data = hex::write(&vec![0x5a; length]);
        let wrapped = 0u64.wrapping_sub(length as u64);
        let mut starts: Vec<u64> = (21..64).flat_map(|bit| [1 << bit, (1 << bit) + 7]).collect();
        starts.extend([wrapped - 1, wrapped, wrapped.saturating_add(1), u64::MAX - 1, u64::MAX]);
        starts.extend([i64::MAX as u64, u64::from(u32::MAX), 2 * END - 1, 3 * END, 16 * END]);
        for start in starts {
            assert_eq!(answer(&format!("stretch {b2} {start} {data}")), format!("7 {data}"));
        }
    }
}

/// Where the joined stretch is refused, the first of two can still be taken.
#[test]
fn neighbours_around_the_end() {
    let b2 = b2();
    let line = |start: u64, length: usize| {
        answer(&format!("stretch {b2} {start} {}", hex::write(&vec![0; length])))
    };
    let zeros = "00".repeat(30);
    let start = END - 20;
    let front = line(start, 20);
    assert!(front.starts_with("0 "));
    assert_eq!(line(END, 10), format!("7 {}", &zeros[..20]));
    assert_eq!(line(start, 30), format!("7 {zeros}"));
    // The last byte belongs to block 65,535.
    let (key, salt) = (bytes("2b7e151628aed2a6abf7158809cf4f3c"), "f0f1f2f3f4f5f6f7f8f9fafbfcfd");
    let (key, salt) = (key.try_into().unwrap(), bytes(salt).try_into().unwrap());
    let last = slow(&key, &salt, 0, 0, END - 1);
    assert_eq!(line(END - 1, 1), format!("0 {last:02x}"));
    assert_eq!(front[40..], format!("{last:02x}"));
}

/// The line uses no session and changes none.
#[test]
fn sessions_stay() {
    let mut desk = Desk::default();
    let make = format!("make 0 {} {} 3 01", "11".repeat(16), "22".repeat(14));
    let stretches = [
        format!("stretch {} 5 abcdef", b2()),
        format!("stretch {} {END} ab", b2()),
        format!("stretch {} 5 abc", b2()),
    ];
    for line in [make.as_str(), "add 0 00000007 s 3", "add 0 00000008 r 4"] {
        assert_eq!(desk.answer(line.as_bytes()).unwrap(), b"0");
    }
    let before: Vec<_> = (0..8).map(|s| desk.answer(format!("state {s}").as_bytes())).collect();
    for line in &stretches {
        let answered = desk.answer(line.as_bytes());
        assert_eq!(answered, Desk::default().answer(line.as_bytes()));
        let after: Vec<_> = (0..8).map(|s| desk.answer(format!("state {s}").as_bytes())).collect();
        assert_eq!(after, before);
    }
}
