//! Protects and unprotects the packet of RFC 9335's appendix A.1.1, and prints what changed.

use delugash::{Error, Policy, Session, Suite, Way};

/// The bytes, and under them `^^` where one differs from the byte that stood there and `++` where none stood.
fn show(name: &str, bytes: &[u8], beside: &[u8]) {
    let mark = |i: usize| match beside.get(i) {
        Some(b) if *b == bytes[i] => "  ",
        Some(_) => "^^",
        None => "++",
    };
    let text: Vec<String> = bytes.iter().map(|b| format!("{b:02x}")).collect();
    let marks: Vec<&str> = (0..bytes.len()).map(mark).collect();
    println!("{name:10} {}", text.join(" "));
    if bytes != beside {
        println!("{:10} {}", "", marks.join(" ").trim_end());
    }
}

fn main() -> Result<(), Error> {
    let key = *b"\xe1\xf9\x7a\x0d\x3e\x01\x8b\xe0\xd6\x4f\xa3\x2c\x06\xde\x41\x39";
    let salt = *b"\x0e\xc6\x75\xad\x49\x8a\xfe\xeb\xb6\x96\x0b\x3a\xab\xe6";
    let mut sender = Session::new(&key, &salt, Policy::Cryptex, &[], Suite::CmHmac)?;
    let mut receiver = Session::new(&key, &salt, Policy::Cryptex, &[], Suite::CmHmac)?;
    sender.add(0xcafebabe, Way::Sending, 0)?;
    receiver.add(0xcafebabe, Way::Receiving, 0)?;

    let packet = *b"\x90\x0f\x12\x35\xde\xca\xfb\xad\xca\xfe\xba\xbe\xbe\xde\0\x01\x51\0\x02\0\xab\xab\xab\xab\xab\xab\xab\xab\xab\xab\xab\xab\xab\xab\xab\xab";
    let mut buf = [0u8; 36 + delugash::ROOM];
    buf[..36].copy_from_slice(&packet);
    show("packet", &packet, &packet);
    let sent = sender.protect(&mut buf, 36)?;
    show("protected", &buf[..sent], &packet);
    let length = receiver.unprotect(&mut buf, sent)?;
    show("given back", &buf[..length], &packet);
    assert_eq!(buf[..length], packet, "what was sent comes back");
    Ok(())
}
