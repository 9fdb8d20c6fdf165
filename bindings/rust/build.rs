//! Links the verified library: libexchange.a, as `rt` writes it, or libclockivy.a, as
//! `make install` does.

mod link;

fn main() {
    link::archive(&["exchange", "clockivy"], "../..");
}
