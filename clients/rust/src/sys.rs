//! The functions of include/reshqobi.h as they are: pointers and lengths.
//!
//! Each is safe to call when the three slices do not overlap and each pointer
//! may be read and written for as many bytes as its length says; every number
//! and every length is taken.

extern "C" {
    pub fn reshqobi_bt(
        image: *mut u8,
        image_bytes: usize,
        store: *mut u8,
        store_bytes: usize,
        values: *mut u8,
        values_bytes: usize,
        domain: u64,
        home0: u64,
        home1: u64,
        home2: u64,
        home3: u64,
        limit0: u64,
        limit1: u64,
        limit2: u64,
        limit3: u64,
        account0: u64,
        set0: u64,
        account1: u64,
        set1: u64,
        account2: u64,
        set2: u64,
        account3: u64,
        set3: u64,
    ) -> u64;

    pub fn reshqobi_rd(
        image: *mut u8,
        image_bytes: usize,
        store: *mut u8,
        store_bytes: usize,
        values: *mut u8,
        values_bytes: usize,
        domain: u64,
        address: u64,
    ) -> u64;

    pub fn reshqobi_wr(
        image: *mut u8,
        image_bytes: usize,
        store: *mut u8,
        store_bytes: usize,
        values: *mut u8,
        values_bytes: usize,
        domain: u64,
        address: u64,
        word: u64,
    ) -> u64;

    pub fn reshqobi_ex(
        image: *mut u8,
        image_bytes: usize,
        store: *mut u8,
        store_bytes: usize,
        values: *mut u8,
        values_bytes: usize,
        domain: u64,
        address: u64,
    ) -> u64;

    pub fn reshqobi_lk(
        image: *mut u8,
        image_bytes: usize,
        store: *mut u8,
        store_bytes: usize,
        values: *mut u8,
        values_bytes: usize,
        domain: u64,
        address: u64,
        rights: u64,
    ) -> u64;

    pub fn reshqobi_cr(
        image: *mut u8,
        image_bytes: usize,
        store: *mut u8,
        store_bytes: usize,
        values: *mut u8,
        values_bytes: usize,
        domain: u64,
        page: u64,
        pages: u64,
        password: u64,
        account: u64,
    ) -> u64;

    pub fn reshqobi_dl(
        image: *mut u8,
        image_bytes: usize,
        store: *mut u8,
        store_bytes: usize,
        values: *mut u8,
        values_bytes: usize,
        domain: u64,
        base: u64,
    ) -> u64;

    pub fn reshqobi_ap(
        image: *mut u8,
        image_bytes: usize,
        store: *mut u8,
        store_bytes: usize,
        values: *mut u8,
        values_bytes: usize,
        domain: u64,
        base: u64,
        password: u64,
        mode: u64,
    ) -> u64;

    pub fn reshqobi_dp(
        image: *mut u8,
        image_bytes: usize,
        store: *mut u8,
        store_bytes: usize,
        values: *mut u8,
        values_bytes: usize,
        domain: u64,
        base: u64,
        password: u64,
    ) -> u64;

    pub fn reshqobi_rg(
        image: *mut u8,
        image_bytes: usize,
        store: *mut u8,
        store_bytes: usize,
        values: *mut u8,
        values_bytes: usize,
        domain: u64,
        base: u64,
        password: u64,
        list_page: u64,
        list_password: u64,
        entries: u64,
        entry0: u64,
        entry1: u64,
        entry2: u64,
        entry3: u64,
    ) -> u64;

    pub fn reshqobi_in(
        image: *mut u8,
        image_bytes: usize,
        store: *mut u8,
        store_bytes: usize,
        values: *mut u8,
        values_bytes: usize,
        domain: u64,
        slot: u64,
        page: u64,
        password: u64,
    ) -> u64;

    pub fn reshqobi_rm(
        image: *mut u8,
        image_bytes: usize,
        store: *mut u8,
        store_bytes: usize,
        values: *mut u8,
        values_bytes: usize,
        domain: u64,
        slot: u64,
    ) -> u64;

    pub fn reshqobi_gt(
        image: *mut u8,
        image_bytes: usize,
        store: *mut u8,
        store_bytes: usize,
        values: *mut u8,
        values_bytes: usize,
        domain: u64,
    ) -> u64;

    pub fn reshqobi_lo(
        image: *mut u8,
        image_bytes: usize,
        store: *mut u8,
        store_bytes: usize,
        values: *mut u8,
        values_bytes: usize,
        domain: u64,
        slot: u64,
    ) -> u64;

    pub fn reshqobi_ca(
        image: *mut u8,
        image_bytes: usize,
        store: *mut u8,
        store_bytes: usize,
        values: *mut u8,
        values_bytes: usize,
        domain: u64,
        entry: u64,
        choice: u64,
    ) -> u64;

    pub fn reshqobi_rt(
        image: *mut u8,
        image_bytes: usize,
        store: *mut u8,
        store_bytes: usize,
        values: *mut u8,
        values_bytes: usize,
        domain: u64,
    ) -> u64;
}
