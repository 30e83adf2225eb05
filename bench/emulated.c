/* The bench as a program for an emulator, under which the start of a Rust program of its own may fail. */
int bench_run(void);

int main(void) { return bench_run(); }
