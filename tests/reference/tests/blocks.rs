//! Blocks: the header, verification, its refusals, and the lent records and work area.

use reference::block::{
    block_of, pack, row_count, unpack, verify, write, Record, Verdict, EQUAL, OTHER_MESSAGE,
    UNREADABLE,
};
use reference::field::Field;
use reference::samples::Random;

const UNTOUCHED: Record = Record {
    state: 99,
    count: 77,
};

/// Changes this many symbols of one row of a block.
fn damage_row(block: &mut [u8], row: usize, errors: usize, random: &mut Random) {
    let bytes = &mut block[8 + 32 * row..40 + 32 * row];
    let mut symbols = unpack(bytes);
    random.damage(Field::of(4).unwrap(), &mut symbols, errors);
    bytes.copy_from_slice(&pack(&symbols));
}

fn verified(block: &[u8], payload: &[u8]) -> (Verdict, Vec<Record>) {
    let rows = row_count(block).unwrap();
    let mut records = vec![UNTOUCHED; rows + 2];
    let mut work = vec![0xee; 1480];
    let verdict = verify(block, payload, &mut records, &mut work);
    assert_eq!(records[rows..], [UNTOUCHED; 2]);
    assert_eq!(
        (&work[..1472], &work[1472..]),
        (&[0; 1472][..], &[0xee; 8][..])
    );
    records.truncate(rows);
    (verdict, records)
}

#[test]
fn nibbles_are_packed_high_first() {
    assert_eq!(unpack(&[0x1f, 0xa0]), [1, 15, 10, 0]);
    let bytes: Vec<u8> = (0..=255).collect();
    assert_eq!(pack(&unpack(&bytes)), bytes);
}

#[test]
fn a_block_has_the_header_of_document_01() {
    let block = block_of(&[0; 60]).unwrap();
    assert_eq!(block[..8], [0, 0, 0, 100, 1, 45, 0, 3]);
    assert_eq!((block.len(), row_count(&block)), (104, Some(3)));
    assert_eq!(block_of(&[]), None);
    assert_eq!(block_of(&[0; 19]), None);
    assert_eq!(block_of(&vec![0; 20 * 1025]), None);
}

#[test]
fn writing_fills_the_block_and_nothing_behind_it() {
    let payload = Random::seeded(22).bytes(60);
    let mut area = [0xee; 110];
    assert_eq!(write(&payload, &mut area), Ok(104));
    assert_eq!(area[..104], block_of(&payload).unwrap()[..]);
    assert_eq!(area[104..], [0xee; 6]);
}

#[test]
fn writing_refuses_by_10_and_then_by_7() {
    for (bytes, room, refusal) in [
        (0, 7, 10),
        (19, 7, 10),
        (21, 40, 10),
        (20 * 1025, 32_808, 10),
        (20, 39, 7),
        (60, 103, 7),
        (20 * 1024, 32_775, 7),
    ] {
        let mut area = vec![0xee; room];
        assert_eq!(write(&vec![1; bytes], &mut area), Err(refusal));
        assert_eq!(area, vec![0xee; room]);
    }
}

#[test]
fn an_untouched_block_is_copied() {
    let mut random = Random::seeded(21);
    for rows in [1, 2, 7, 256, 1024] {
        let payload = random.bytes(20 * rows);
        let block = block_of(&payload).unwrap();
        let (verdict, records) = verified(&block, &payload);
        assert_eq!(verdict, Verdict::Copied(0));
        assert_eq!(
            records,
            vec![
                Record {
                    state: EQUAL,
                    count: 0
                };
                rows
            ]
        );
    }
}

#[test]
fn weak_rows_are_counted() {
    let mut random = Random::seeded(22);
    let payload = random.bytes(200);
    let mut block = block_of(&payload).unwrap();
    for row in 0..10 {
        damage_row(&mut block, row, row, &mut random);
    }
    let (verdict, records) = verified(&block, &payload);
    assert_eq!(verdict, Verdict::Copied(45));
    let expected: Vec<Record> = (0..10)
        .map(|count| Record {
            state: EQUAL,
            count,
        })
        .collect();
    assert_eq!(records, expected);
}

#[test]
fn the_first_row_not_equal_is_named_and_all_rows_are_recorded() {
    let mut random = Random::seeded(23);
    let payload = random.bytes(100);
    let mut other = payload.clone();
    other[20 + 19] ^= 1;
    other[60] ^= 0x10;
    let mut block = block_of(&payload).unwrap();
    damage_row(&mut block, 1, 4, &mut random);
    damage_row(&mut block, 2, 20, &mut random);
    let (verdict, records) = verified(&block, &other);
    assert_eq!(verdict, Verdict::Differs(1));
    let states: Vec<u8> = records.iter().map(|record| record.state).collect();
    assert_eq!(
        states,
        [EQUAL, OTHER_MESSAGE, UNREADABLE, OTHER_MESSAGE, EQUAL]
    );
    assert_eq!(
        (records[1].count, records[2].count, records[3].count),
        (4, 0, 0)
    );
    let (verdict, records) = verified(&block, &payload);
    assert_eq!(verdict, Verdict::Unreadable(2));
    assert_eq!(
        records[1],
        Record {
            state: EQUAL,
            count: 4
        }
    );
}

#[test]
fn a_header_that_is_not_as_said_is_refused() {
    let payload = [5; 40];
    let good = block_of(&payload).unwrap();
    let mut records = [UNTOUCHED; 2];
    let mut work = [0xee; 1472];
    for place in 0..8 {
        for change in 1..=255 {
            let mut block = good.clone();
            block[place] ^= change;
            assert_eq!(
                verify(&block, &payload, &mut records, &mut work),
                Verdict::Refused(9)
            );
        }
    }
    for length in 0..good.len() {
        let cut = &good[..length];
        assert_eq!(
            verify(cut, &payload, &mut records, &mut work),
            Verdict::Refused(9)
        );
    }
    let longer = [&good[..], &[0]].concat();
    assert_eq!(
        verify(&longer, &payload, &mut records, &mut work),
        Verdict::Refused(9)
    );
    assert_eq!((records, work), ([UNTOUCHED; 2], [0xee; 1472]));
}

#[test]
fn refusals_come_in_the_order_9_10_11_6() {
    let good = block_of(&[5; 40]).unwrap();
    for chosen in 0..16_u32 {
        let wrong = |bit: u32| chosen >> bit & 1 == 1;
        let block = &good[..good.len() - usize::from(wrong(0))];
        let payload = [5; 41];
        let payload = &payload[..if wrong(1) { 41 } else { 40 }];
        let mut records = vec![UNTOUCHED; if wrong(2) { 1 } else { 2 }];
        let mut work = vec![0xee; if wrong(3) { 1471 } else { 1472 }];
        let verdict = verify(block, payload, &mut records, &mut work);
        let order = [9, 10, 11, 6];
        let expected = (0..4)
            .find(|&bit| wrong(bit))
            .map(|bit| order[bit as usize]);
        assert_eq!(
            verdict,
            expected.map_or(Verdict::Copied(0), Verdict::Refused)
        );
        if chosen != 0 {
            assert!(records.iter().all(|&record| record == UNTOUCHED));
            assert!(work.iter().all(|&byte| byte == 0xee));
        }
    }
}
