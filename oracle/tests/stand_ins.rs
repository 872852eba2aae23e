//! What stands in for the files and crates that are not judged, held against what is known of them.
use oracle::block_on;
use oracle::config::*;
use oracle::flash::{Fault, Flash, LogFlash, Op};
use oracle::heapless;
use oracle::page::peek::PAYLOAD;
use oracle::record::{end_of, End, RecordHeader};
use oracle::types::{OptionPageID, PageID};

#[test]
fn the_build() {
    assert_eq!((PAYLOAD, FILE_COUNT, RECORD_HEADER_SIZE), (4096 - 12 - 8, 17, 6));
}

#[test]
fn page_numbers() {
    let page = |raw| OptionPageID::from_raw(raw).into_option().map(PageID::index);
    assert_eq!((page(0), page(65534), page(65535)), (Some(0), Some(65534), None));
}

/// A record's header, with a key and a value of zeros behind it.
fn record(kind: u8, key: u8, value: u16) -> Vec<u8> {
    let mut bytes = vec![0x48, 0x56, kind, key];
    bytes.extend(value.to_le_bytes());
    bytes.resize(6 + usize::from(key) + usize::from(value), 0);
    bytes
}

#[test]
fn a_record_is_checked_in_order() {
    let at_0 = |run: &[u8]| end_of(run, 0, true);
    assert_eq!(at_0(&record(0, 64, 1024)), End::At(6 + 64 + 1024));
    assert_eq!(at_0(&record(1, 0, 5)), End::At(11));
    assert_eq!(at_0(&record(0, 65, 0)), End::Corrupted);
    assert_eq!(at_0(&record(0, 0, 1025)), End::Corrupted);
    for (kind, end) in [
        (2, End::LaterEdition),
        (127, End::LaterEdition),
        (128, End::Corrupted),
        (255, End::Corrupted),
    ] {
        assert_eq!(at_0(&record(kind, 0, 0)), end);
        // the kind comes before the lengths
        assert_eq!(at_0(&record(kind, 65, 1025)), end);
    }
    // six bytes and the mark come before the kind
    assert_eq!(at_0(&record(2, 0, 0)[..5]), End::Corrupted);
    assert_eq!(at_0(&[0x48, 0x57, 2, 0, 0, 0]), End::Corrupted);
    // the run's end comes last, and can be left out
    let short = &record(0, 3, 4)[..12];
    assert_eq!((at_0(short), end_of(short, 0, false)), (End::Corrupted, End::At(13)));
}

#[test]
fn a_header_as_the_cursor_sees_it() {
    let header = RecordHeader::decode([0x48, 0x56, 1, 64, 0x00, 0x04]).unwrap();
    assert_eq!((header.is_delete, header.key_len, header.value_len), (true, 64, 1024));
}

#[test]
fn a_list_in_place() {
    let mut list = heapless::Vec::<u8, 3>::new();
    for item in [5, 6, 7] {
        assert_eq!(list.push(item), Ok(()));
    }
    assert_eq!(list.push(8), Err(8));
    assert_eq!(list[..], [5, 6, 7]);
    assert_eq!(list.into_array::<3>().ok(), Some([5, 6, 7]));
    assert!(heapless::Vec::<u8, 3>::from_slice(&[1, 2, 3, 4]).is_err());
    assert!(heapless::Vec::<u8, 3>::new().into_array::<3>().is_err());
}

#[test]
fn a_flash_lists_what_was_done_to_it() {
    let mut flash = LogFlash::erased(2 * PAGE_SIZE);
    let page = OptionPageID::from_raw(1).into_option().unwrap();
    flash.left = 3;
    block_on(flash.write(page, 8, &[1, 2, 3, 4])).unwrap();
    assert_eq!(flash.bytes[PAGE_SIZE + 8..][..5], [1, 2, 3, 4, 0xFF]);
    // a store replaces bytes, it does not only clear bits
    block_on(flash.write(page, 8, &[0xFF; 4])).unwrap();
    block_on(flash.erase(page)).unwrap();
    assert_eq!(block_on(flash.erase(page)), Err(Fault::Cut));
    assert_eq!(block_on(flash.write(page, 0, &[0; 4])), Err(Fault::Cut));
    assert_eq!(flash.bytes, [ERASE_VALUE; 2 * PAGE_SIZE]);
    assert_eq!(
        flash.log,
        [Op::Store(8, vec![1, 2, 3, 4]), Op::Store(8, vec![0xFF; 4]), Op::Erase]
    );
}
