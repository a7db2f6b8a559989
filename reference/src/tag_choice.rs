//! Tag choice (document 01, "Tag choice").

/// The front end's answer for "no tag" (document 01, "The reachable part",
/// last paragraph).
pub const NO_TAG: u32 = 16;

/// The tags the mask admits, in cyclic order, the start tag first if admitted.
fn admitted(start: u8, mask: u16) -> impl Iterator<Item = u8> {
    let from_start = (0..16).map(move |distance| (start + distance) % 16);
    from_start.filter(move |&tag| !masked(tag, mask))
}

fn masked(tag: u8, mask: u16) -> bool {
    mask >> tag & 1 == 1
}

/// The tag chosen from a start tag and an offset, both at most 15.
///
/// Each count of the offset goes one place further in the circle of admitted
/// tags. An admitted start is place 0 itself. A masked start lies before
/// place 0, so offset 0, which only skips, and offset 1 both end on place 0.
pub fn choose(start: u8, offset: u8, mask: u16) -> u8 {
    let circle = mask.count_zeros() as usize;
    if circle == 0 {
        return 0;
    }
    let place = if masked(start, mask) {
        offset.saturating_sub(1)
    } else {
        offset
    };
    let chosen = admitted(start, mask).nth(usize::from(place) % circle);
    chosen.expect("a place in the circle holds a tag")
}

/// What the C front end is told: the chosen tag, or 16 if a number is too
/// large (document 01, "The reachable part", last paragraph).
pub fn front_end_answer(start: u32, offset: u32, mask: u32) -> u32 {
    match (tag(start), tag(offset), u16::try_from(mask)) {
        (Some(start), Some(offset), Ok(mask)) => u32::from(choose(start, offset, mask)),
        _ => NO_TAG,
    }
}

fn tag(number: u32) -> Option<u8> {
    u8::try_from(number).ok().filter(|&number| number <= 15)
}

#[cfg(test)]
mod tests {
    use super::*;

    #[test]
    fn worked_examples() {
        assert_eq!(choose(2, 1, 0x0000), 3, "P1");
        assert_eq!(choose(2, 1, 0x0008), 4, "P2");
        assert_eq!(choose(2, 1, 0xFFFF), 0, "P3");
        assert_eq!(choose(2, 0, 0x0004), 3, "P4");
        assert_eq!(choose(2, 1, 0x0004), 3, "P5");
        assert_eq!(choose(15, 0, 0x0000), 15, "P6");
        assert_eq!(choose(0, 1, 0x0000), 1, "P14");
    }

    #[test]
    fn all_masked_is_zero_for_every_start_and_offset() {
        for start in 0..16 {
            for offset in 0..16 {
                assert_eq!(choose(start, offset, 0xFFFF), 0);
            }
        }
    }

    #[test]
    fn nothing_masked_is_a_sum() {
        for start in 0..16 {
            for offset in 0..16 {
                assert_eq!(choose(start, offset, 0), (start + offset) % 16);
            }
        }
    }

    #[test]
    fn a_lone_admitted_tag_is_always_chosen() {
        for lone in 0..16 {
            for start in 0..16 {
                for offset in 0..16 {
                    assert_eq!(choose(start, offset, !(1 << lone)), lone);
                }
            }
        }
    }

    #[test]
    fn walks_done_by_hand() {
        // Admitted 1, 5 and 14: from 14 on to 1, 5, 14, 1; from the masked 6 on to 14, 1.
        let mask = !(1 << 1 | 1 << 5 | 1 << 14);
        assert_eq!(choose(14, 0, mask), 14);
        assert_eq!(choose(14, 3, mask), 14);
        assert_eq!(choose(14, 4, mask), 1);
        assert_eq!(choose(6, 0, mask), 14);
        assert_eq!(choose(6, 1, mask), 14);
        assert_eq!(choose(6, 2, mask), 1);
        assert_eq!(choose(15, 15, mask), 14);
    }

    #[test]
    fn the_front_end_gets_16_for_a_number_too_large() {
        assert_eq!(front_end_answer(15, 15, 0xFFFF), 0);
        assert_eq!(front_end_answer(15, 15, 0), 14);
        assert_eq!(front_end_answer(16, 0, 0), NO_TAG);
        assert_eq!(front_end_answer(0, 16, 0), NO_TAG);
        assert_eq!(front_end_answer(0, 0, 0x1_0000), NO_TAG);
        assert_eq!(front_end_answer(0x100, 0, 0), NO_TAG);
        assert_eq!(front_end_answer(0, 0x100, 0), NO_TAG);
        assert_eq!(front_end_answer(16, 16, u32::MAX), NO_TAG);
    }
}
