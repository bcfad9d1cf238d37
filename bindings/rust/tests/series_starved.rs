//! That many pushes at a series change nothing where memory is wanting. It stands alone, for what it limits is its whole process.
#![cfg(target_os = "linux")]

use livevec::{Kind, Refusal, RefusedAt, Series, Value};

#[repr(C)]
struct Limit {
    now: u64,
    most: u64,
}

// of the C library, which a program in Rust is linked with
unsafe extern "C" {
    fn getrlimit(resource: i32, limit: *mut Limit) -> i32;
    fn setrlimit(resource: i32, limit: *const Limit) -> i32;
}

const ADDRESS_SPACE: i32 = 9;

/// Limits how much address space there is, in bytes.
fn limited(now: u64, most: u64) {
    // SAFETY: the call reads one struct, which is there.
    assert_eq!(unsafe { setrlimit(ADDRESS_SPACE, &Limit { now, most }) }, 0);
}

#[test]
fn want_of_memory_changes_nothing() {
    let mut series = Series::new().unwrap();
    series.extend_from_slice(&[5, 7]).unwrap();
    let more: Vec<i64> = (0..16_000_000).collect();
    let mut limit = Limit { now: 0, most: 0 };
    // SAFETY: the call writes one struct, which is there.
    assert_eq!(unsafe { getrlimit(ADDRESS_SPACE, &mut limit) }, 0);
    let pages: u64 = std::fs::read_to_string("/proc/self/statm").unwrap().split(' ').next().unwrap().parse().unwrap();
    limited(pages * 4096 + (16 << 20), limit.most);
    let refused = series.extend_from_slice(&more);
    limited(limit.now, limit.most);
    assert_eq!(refused, Err(RefusedAt { place: 0, done: 0, refusal: Refusal::NoMemory }));
    assert_eq!((series.size(), series.edits(), series.value(Kind::Sum, ..)), (2, 2, Ok(Value::Sum(12))));
    assert_eq!(series.extend_from_slice(&more), Ok(16_000_002));
    assert_eq!(series.sum(2..), Ok(more.iter().sum()));
}
