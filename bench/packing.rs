// Packs or unpacks a slot a thousand times, by the proved library or by the hand-written peer below; bench/packing.sh counts
// the instructions of each. Both get the same slots, which are filled before the first call.
use std::hint::black_box;

extern "C" {
    fn birnenschloss_position(order: u32, place: u32) -> u32;
    fn birnenschloss_pack_slot(slot: *mut u8, len: usize, order: u32, at: u32, size: u32, value: u32);
    fn birnenschloss_unpack_slot(slot: *const u8, len: usize, order: u32, at: u32, size: u32) -> u32;
}

// The word whose bits stand in the order's walk; and back.
fn turned(word: u64, order: u32) -> u64 {
    if order == 0 { word } else { word.swap_bytes() }
}

#[no_mangle]
#[inline(never)]
extern "C" fn hand_position(order: u32, place: u32) -> u32 {
    if order == 0 { place } else { 56 - (place & !7) + (place & 7) }
}

#[no_mangle]
#[inline(never)]
extern "C" fn hand_pack_slot(slot: &mut [u8; 8], order: u32, at: u32, size: u32, value: u32) {
    let mask = ((1u64 << size) - 1) << at;
    let word = turned(u64::from_le_bytes(*slot), order);
    *slot = turned((word & !mask) | (((value as u64) << at) & mask), order).to_le_bytes();
}

// The same with no branch, as the proved library is held to: the compiler makes one of the `if`s above.
#[no_mangle]
#[inline(never)]
extern "C" fn flat_pack_slot(slot: &mut [u8; 8], order: u32, at: u32, size: u32, value: u32) {
    let big = ((order != 0) as u64).wrapping_neg();
    let pick = |w: u64| (w & !big) | (w.swap_bytes() & big);
    let mask = ((1u64 << size) - 1) << at;
    *slot = pick((pick(u64::from_le_bytes(*slot)) & !mask) | (((value as u64) << at) & mask)).to_le_bytes();
}

#[no_mangle]
#[inline(never)]
extern "C" fn hand_unpack_slot(slot: &[u8; 8], order: u32, at: u32, size: u32) -> u32 {
    ((turned(u64::from_le_bytes(*slot), order) >> at) & ((1u64 << size) - 1)) as u32
}

fn main() {
    let args: Vec<String> = std::env::args().collect();
    let order: u32 = args[3].parse().unwrap();
    let mut slot = [0xa5u8; 8];
    let mut other = slot;
    for i in 0..1000u32 {
        let (start, size, value) = black_box((18 + i % 3, 12 + i % 4, i.wrapping_mul(2654435761)));
        let at = black_box(if order == 0 { start } else { 56 - start / 8 * 8 + start % 8 });
        match (args[1].as_str(), args[2].as_str()) {
            ("proved", "position") => drop(black_box(unsafe { birnenschloss_position(order, start) })),
            ("hand", "position") => drop(black_box(hand_position(order, start))),
            ("proved", "pack_slot") => unsafe { birnenschloss_pack_slot(slot.as_mut_ptr(), 8, order, at, size, value) },
            ("hand", "pack_slot") => hand_pack_slot(&mut slot, order, at, size, value),
            ("flat", "pack_slot") => flat_pack_slot(&mut slot, order, at, size, value),
            ("proved", "unpack_slot") => drop(black_box(unsafe { birnenschloss_unpack_slot(slot.as_ptr(), 8, order, at, size) })),
            ("hand", "unpack_slot") => drop(black_box(hand_unpack_slot(&slot, order, at, size))),
            ("same", _) => {
                assert_eq!(at, unsafe { birnenschloss_position(order, start) });
                hand_pack_slot(&mut other, order, at, size, value);
                unsafe { birnenschloss_pack_slot(slot.as_mut_ptr(), 8, order, at, size, value) };
                assert_eq!(slot, other);
                let back = unsafe { birnenschloss_unpack_slot(slot.as_ptr(), 8, order, at, size) };
                assert_eq!(back, hand_unpack_slot(&other, order, at, size));
                assert_eq!(back as u64, value as u64 % (1 << size));
            }
            _ => panic!("packing proved|hand|flat|same position|pack_slot|unpack_slot 0|1"),
        }
    }
    black_box(slot);
}
