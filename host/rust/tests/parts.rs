//! Banks, records and entries of the bytes that a file or a C program has; a bank with its written record and reasons, taken apart and put
//! together; a bank that threads share; and the picture that a tile calls for.
use tulonkasa::{
    Bank, Entry, Picture, Record, Refusal, Tile, Written, BANK_BYTES, ENTRY_BYTES, REASON_BYTES, WRITTEN_BYTES,
};

/// Two rows of four texels of 16 bits.
const TILE: Tile = Tile {
    fmt: 0,
    siz: 2,
    palette: 0,
    mode: 0,
    cms: 0,
    cmt: 0,
    masks: 0,
    maskt: 0,
    line: 1,
    tmem_addr: 3,
    width: 4,
    height: 2,
};

/// Bytes of which neighbours differ.
fn bytes(length: usize) -> Vec<u8> {
    (0..=250).cycle().take(length).collect()
}

#[test]
fn a_slice_is_taken_at_its_length_alone() {
    let file = bytes(2 * ENTRY_BYTES);
    for length in [0, 1, BANK_BYTES - 1, BANK_BYTES + 1, 2 * BANK_BYTES] {
        assert_eq!(Bank::try_from(&file[..length]), Err(Refusal::Length), "{length}");
    }
    let bank = Bank::try_from(&file[1..=BANK_BYTES]).unwrap();
    assert_eq!(bank.bytes()[..], file[1..=BANK_BYTES]);
    assert_eq!(bank, Bank::from(*bank.bytes()));

    for length in [0, ENTRY_BYTES - 1, ENTRY_BYTES + 1] {
        assert_eq!(Entry::try_from(&file[..length]), Err(Refusal::Entries), "{length}");
    }
    assert_eq!(Entry::try_from(&file[..ENTRY_BYTES]).unwrap().bytes()[..], file[..ENTRY_BYTES]);

    for length in [0, 15, 16, Record::BYTES - 1, Record::BYTES + 1] {
        assert_eq!(Record::try_from(&file[..length]), Err(Refusal::Length), "{length}");
    }
}

#[test]
fn a_record_is_its_tile_and_its_bank() {
    let mut file = TILE.to_bytes().unwrap().to_vec();
    file.extend(bytes(BANK_BYTES));
    let record = Record::try_from(&file[..]).unwrap();
    assert_eq!((record.tile, &record.bank.bytes()[..]), (TILE, &file[16..]));
    assert_eq!(record.bank.written().last(), 0);
    assert_eq!(Record::from(file.first_chunk().unwrap()), record);
    assert_eq!(Tile::from(*file.first_chunk().unwrap()), TILE);
}

/// A bank with two loads, of which the second was rejected.
fn loaded() -> Bank {
    let mut bank = Bank::try_from(&bytes(BANK_BYTES)[..]).unwrap();
    bank.load_tile(&bytes(16), &TILE, 2, 2, 1, 8).unwrap();
    bank.reject_tile(&bytes(8), &Tile { tmem_addr: 4, ..TILE }, 2, 1, 1, 8, 9).unwrap();
    bank
}

#[test]
fn a_bank_is_its_parts() {
    let (bytes, written, reasons) = loaded().into_parts();
    let (record, last) = written.into_parts();
    assert_eq!((last, record[2 * 24 + 1], record[2 * 32 + 1], reasons[24], reasons[32]), (2, 1, 2, 0, 9));
    let mut again = Bank::from_parts(bytes, Written::from_parts(record, last), reasons);
    assert_eq!(again, loaded());
    assert_eq!(again.rejection(&TILE), Ok(Some(9)));
    assert_eq!(again.load_block(&[], &TILE, 2, 0, 1).unwrap().number, 3);
}

#[test]
fn each_part_matters() {
    let with = |change: fn(&mut [u8; BANK_BYTES], &mut [u8; WRITTEN_BYTES], &mut u32, &mut [u8; REASON_BYTES])| {
        let (mut bytes, written, mut reasons) = loaded().into_parts();
        let (mut record, mut last) = written.into_parts();
        change(&mut bytes, &mut record, &mut last, &mut reasons);
        Bank::from_parts(bytes, Written::from_parts(record, last), reasons)
    };
    assert_eq!(with(|_, _, _, _| ()), loaded());
    assert_eq!(with(|bytes, _, _, _| bytes[4095] = 1).bytes()[4095], 1);
    assert_eq!(with(|_, record, _, _| record[8190..].fill(1)).written().number_at(4095), 257);
    assert_eq!(with(|_, _, _, reasons| reasons[4095] = 8).reasons()[4095], 8);
    let mut spent = with(|_, _, last, _| *last = 65535);
    assert_eq!(spent.load_block(&[], &TILE, 2, 0, 1), Err(Refusal::Number));
}

#[test]
fn threads_share_a_bank_that_none_writes() {
    let bank = loaded();
    let lookup = Tile { masks: 3, ..TILE };
    let made = || [TILE, lookup].map(|tile| (bank.picture_called_for(&tile, 0), bank.key(&tile, 0), bank.rejection(&tile)));
    let alone = made();
    std::thread::scope(|scope| {
        let threads = [(); 8].map(|()| scope.spawn(|| (0..50).all(|_| made() == alone)));
        assert!(threads.into_iter().all(|thread| thread.join().unwrap()));
    });
}

#[test]
fn the_picture_is_the_one_called_for() {
    let bank = loaded();
    let plain = bank.picture_called_for(&TILE, 0).unwrap();
    assert_eq!(plain, Picture { width: 4, height: 2, texels: bank.sample_tile(&TILE, 0).unwrap() });

    let repeating = Tile { masks: 3, ..TILE }; // every eight columns, and four wide
    let lookup = bank.picture_called_for(&repeating, 0).unwrap();
    assert_eq!(lookup, Picture { width: 4096, height: 4, texels: bank.sampling_lookup(&repeating, 0).unwrap() });
    assert_ne!(lookup.texels, bank.sample_tile(&repeating, 0).unwrap());

    // The extent to allocate is 1, yet there are no texels.
    let empty = bank.picture_called_for(&Tile { width: 0, ..TILE }, 0).unwrap();
    assert_eq!(empty, Picture { width: 0, height: 2, texels: vec![] });

    for (tile, lane, refusal) in [
        (Tile { fmt: 8, ..TILE }, 0, Refusal::Tile),
        (Tile { mode: 4, ..TILE }, 0, Refusal::ModeOrLane),
        (TILE, 4, Refusal::ModeOrLane),
        (Tile { fmt: 1, ..TILE }, 0, Refusal::Pair),
        (Tile { fmt: 1, ..repeating }, 0, Refusal::Pair),
    ] {
        assert_eq!(bank.picture_called_for(&tile, lane), Err(refusal));
    }
}
