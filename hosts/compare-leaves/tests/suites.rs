//! Every number a header can store, looked up; and numbers wider than that.

use compare_leaves::report::compared;

#[test]
fn every_suite_number() {
    let (mut count, mut known) = (0, 0);
    for number in 0..=u32::from(u16::MAX) {
        // 0 is no version, and stands for "no such suite".
        let wanted = reference::lookup(number).map_or(0, |suite| suite.version);
        assert_eq!(
            u32::from(leaves::suite_version(number)),
            wanted,
            "suite {number:04x}"
        );
        for bit in 16..32 {
            let wide = number | 1 << bit;
            assert_eq!(leaves::suite_version(wide), 0, "suite {wide:08x}");
        }
        known += u64::from(wanted != 0);
        count += 17;
    }
    assert_eq!((count, known), (17 * 65_536, 11));
    compared(count, "suite numbers");
}
