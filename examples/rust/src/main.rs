//! A recorder's first steps: an empty container is opened, and a region created, grown, published and located.
//! Each answer is a line of its own.

use fundravai::{Container, Refused};

fn main() -> Result<(), Refused> {
    let mut c = Container::open((12, 8192, 106_496), &[], &[], &mut [])?;
    println!("open: done");
    println!("create 1 mainA: byte {}", c.create(1, 7, b"mainA")?);
    println!("grow 1: byte {}", c.grow(1)?);
    c.publish(1, 65536)?;
    println!("publish 1 65536: done");
    for len in [1, 2] {
        match c.locate(1, 65535, len) {
            Ok(byte) => println!("locate 1 65535 {len}: byte {byte}"),
            Err(refused) => println!("locate 1 65535 {len}: {refused}"),
        }
    }
    println!("held {}, free {}", c.held(), c.free());
    let (published, held) = c.totals(7);
    println!("tag 7: published {published} of {held}");

    let mut extents = [0; 120];
    let record = c.region(0, &mut extents)?;
    println!("region 0: done");
    let name = &record.name[..usize::from(record.name_len)];
    println!(
        "{}: number {} of {}, the last {}, {} extent of {} bytes at byte {}",
        name.escape_ascii(),
        record.number,
        c.region_count(),
        c.last_number(),
        record.extent_count,
        extents[1],
        extents[0]
    );

    c.cap(7, Some(73728))?;
    println!("cap 7 73728: done");
    match c.grow(1) {
        Ok(byte) => println!("grow 1: byte {byte}"),
        Err(refused) => println!("grow 1: {refused}"),
    }
    c.drop_region(1)?;
    println!("drop 1: done");
    println!("held {}, free {}", c.held(), c.free());
    Ok(())
}
