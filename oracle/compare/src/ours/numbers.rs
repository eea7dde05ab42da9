mod c {
    extern "C" {
        pub fn probe_next_up(x: f64) -> f64;
        pub fn probe_floor(x: f64) -> i64;
        pub fn probe_floor_within(x: f64, top: u64) -> u64;
        pub fn probe_round(x: f64) -> i64;
        pub fn probe_sqrt(x: f64) -> f64;
        pub fn probe_is_finite(x: f64) -> bool;
        pub fn probe_abs(x: f64) -> f64;
        pub fn probe_lesser(x: f64, y: f64) -> f64;
        pub fn probe_greater(x: f64, y: f64) -> f64;
    }
}

pub fn next_up(x: f64) -> f64 {
    unsafe { c::probe_next_up(x) }
}

pub fn floor(x: f64) -> i64 {
    unsafe { c::probe_floor(x) }
}

pub fn floor_within(x: f64, top: u64) -> u64 {
    unsafe { c::probe_floor_within(x, top) }
}

pub fn round(x: f64) -> i64 {
    unsafe { c::probe_round(x) }
}

pub fn sqrt(x: f64) -> f64 {
    unsafe { c::probe_sqrt(x) }
}

pub fn is_finite(x: f64) -> bool {
    unsafe { c::probe_is_finite(x) }
}

pub fn abs(x: f64) -> f64 {
    unsafe { c::probe_abs(x) }
}

pub fn lesser(x: f64, y: f64) -> f64 {
    unsafe { c::probe_lesser(x, y) }
}

pub fn greater(x: f64, y: f64) -> f64 {
    unsafe { c::probe_greater(x, y) }
}
