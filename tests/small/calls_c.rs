extern "C" {
    fn low_c() -> i32;
}
