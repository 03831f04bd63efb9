//! The lines of a journal's file that are no entries.
use ioc_journal_lines::{
    Header, Seals, add_base, add_header, add_seal, base_of, end_of, header_of, seal_of,
};
use ioc_saved::{SavedText, SavedValue};
use ioc_values::{FieldName, Name, Short};
use std::alloc::AllocError;
use std::test::*;

#[test]
fn lines_read_back(rt: HostRuntime) -> Result<(), AllocError> {
    let header = Header {
        program: Short::cut(b"0.1.0"),
        database: [0xA5; 32],
        has_own_devices: false,
        is_sealed: false,
        first: 0,
    };
    let mut line = Vec::new(rt.alloc());
    add_header(&mut line, &header)?;
    let wanted =
        b"journal\t1\t0.1.0\ta5a5a5a5a5a5a5a5a5a5a5a5a5a5a5a5a5a5a5a5a5a5a5a5a5a5a5a5a5a5a5a5\tlowest\tplain\t0\n";
    assert!(rt; line.as_slice() == wanted.as_slice());
    let read = header_of(rt.alloc(), line.as_slice())?;
    assert!(rt; matches!(&read, Some(read) if read.database == header.database && read.first == 0));
    assert!(rt; matches!(&read, Some(read) if !read.has_own_devices));
    let mut own_line = Vec::new(rt.alloc());
    add_header(
        &mut own_line,
        &Header {
            has_own_devices: true,
            ..header
        },
    )?;
    let wanted =
        b"journal\t1\t0.1.0\ta5a5a5a5a5a5a5a5a5a5a5a5a5a5a5a5a5a5a5a5a5a5a5a5a5a5a5a5a5a5a5a5\town\tplain\t0\n";
    assert!(rt; own_line.as_slice() == wanted.as_slice());
    let read = header_of(rt.alloc(), own_line.as_slice())?;
    assert!(rt; matches!(&read, Some(read) if read.has_own_devices));
    assert!(rt; header_of(rt.alloc(), b"journal\t1\t0.1.0\ta5\tlowest\tplain\t0\n")?.is_none());
    assert!(rt; end_of(rt.alloc(), b"end\t12\n")? == Some(12));
    assert!(rt; end_of(rt.alloc(), b"end\t012\n")?.is_none());
    assert!(rt; end_of(rt.alloc(), b"end\t12")?.is_none());
    Ok(())
}

// The hash of `abc` is an example of FIPS 180-4.
#[test]
fn seals_of_lines(rt: HostRuntime) -> Result<(), AllocError> {
    let mut seals = Seals::new();
    seals.cover(b"a");
    seals.cover(b"bc");
    let mut line = Vec::new(rt.alloc());
    add_seal(&mut line, &seals.hash()?)?;
    let wanted = b"seal\tba7816bf8f01cfea414140de5dae2223b00361a396177a9cb410ff61f20015ad\n";
    assert!(rt; line.as_slice() == wanted.as_slice());
    assert!(rt; seal_of(rt.alloc(), line.as_slice())? == Some(seals.hash()?));
    Ok(())
}

#[test]
fn lines_of_saved_values(rt: HostRuntime) -> Result<(), AllocError> {
    let saved = SavedValue {
        record_name: Name::cut(b"plant:note"),
        field: FieldName::cut(b"DESC"),
        value: SavedText::cut(b"a\tb"),
    };
    let mut line = Vec::new(rt.alloc());
    add_base(&mut line, &saved)?;
    assert!(rt; line.as_slice() == b"base\tplant:note.DESC a\\tb\n".as_slice());
    let read = base_of(rt.alloc(), line.as_slice())?;
    assert!(rt;
        matches!(&read, Some(read) if read.record_name.as_slice() == b"plant:note".as_slice()
            && read.field.as_slice() == b"DESC".as_slice() && read.value.as_slice() == b"a\tb".as_slice())
    );
    assert!(rt; base_of(rt.alloc(), b"base\tplant:note.DESC a\\x09b\n")?.is_none());
    assert!(rt; base_of(rt.alloc(), b"base\tplant:note.DESC a")?.is_none());
    assert!(rt; base_of(rt.alloc(), b"bass\tplant:note.DESC a\n")?.is_none());
    assert!(rt; base_of(rt.alloc(), b"base\tplant DESC a\n")?.is_none());
    Ok(())
}
