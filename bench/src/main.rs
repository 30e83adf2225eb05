//! The bench as a program. Its first argument is the corpus's folder; `bench/run` starts it.

fn main() {
    std::process::exit(bench::bench_run());
}
