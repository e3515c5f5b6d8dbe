unsigned long number_of_c(void);
unsigned long tvk_number(void) { return number_of_c(); }
