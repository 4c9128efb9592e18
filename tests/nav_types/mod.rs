mod example;

use nav_types::Bytes;
use std::test::Fail;

#[test]
fn lists_take_what_is_given_to_them(rt: HostRuntime) -> Result<(), Fail> {
    let mut bytes = Bytes::from(Vec::from_slice(rt.alloc(), b"ab")?);
    bytes.push_decimal(4_294_967_296)?;
    let mut copy = bytes.copy(rt.alloc())?;
    copy.append(&mut bytes)?;
    assert!(rt; copy.as_slice() == b"ab4294967296ab4294967296".as_slice() && bytes.is_empty());
    Ok(())
}
