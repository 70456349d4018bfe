//! The sizes that the C header and the Fortran module tell are those of document 01.

use oracle::plan::LONGEST_PLAN;
use oracle::routine::LONGEST_FILE;
use oracle::run::{LONGEST_REPORT, MAX_PATH};

const SIZES: [(&str, usize); 4] = [
    ("hpf_largest_routine", LONGEST_FILE),
    ("hpf_largest_plan", LONGEST_PLAN),
    ("hpf_largest_report", LONGEST_REPORT),
    ("hpf_longest_path", MAX_PATH),
];

/// Each size stands in a line of its own, after its name and at most a sign.
fn tells(text: &str) {
    for (name, size) in SIZES {
        let lines = text.lines().filter_map(|line| {
            let line = line.to_lowercase().replace('=', " ");
            let mut words = line.split_whitespace().skip_while(|&word| word != name);
            let told = words.nth(1)?.parse();
            told.ok()
        });
        let told: Vec<usize> = lines.collect();
        assert_eq!(told, [size], "{name}");
    }
}

#[test]
fn the_header() {
    tells(include_str!("../../../include/hpf_remap.h"));
}

#[test]
fn the_fortran_module() {
    tells(include_str!("../../../examples/fortran/hpf_remap.f90"));
}
