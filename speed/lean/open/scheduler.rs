
// Nothing is appended: the lean machine has no scheduler.
