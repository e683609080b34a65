//! Published sample data: Core Specification, Vol 3 Part H, 2.2.3 and 2.2.4.

#[test]
fn c1() {
    let preq = [0x01, 0x01, 0x00, 0x00, 0x10, 0x07, 0x07];
    let pres = [0x02, 0x03, 0x00, 0x00, 0x08, 0x00, 0x05];
    let ia = [0xa1, 0xa2, 0xa3, 0xa4, 0xa5, 0xa6];
    let ra = [0xb1, 0xb2, 0xb3, 0xb4, 0xb5, 0xb6];
    let confirm = reference::c1(0, 0x5783d521_56ad6f0e_6388274e_c6702ee0, &preq, &pres, 1, &ia, 0, &ra);
    assert_eq!(confirm, 0x1e1e3fef_878988ea_d2a74dc5_bef13b86);
}

#[test]
fn s1() {
    let (r1, r2) = (0x000f0e0d_0c0b0a09_11223344_55667788, 0x01020304_05060708_99aabbcc_ddeeff00);
    assert_eq!(reference::s1(0, r1, r2), 0x9a1fe1f0_e8b0f49b_5b4216ae_796da062);
}
