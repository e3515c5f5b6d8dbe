int low_c(void) { return 1; }
