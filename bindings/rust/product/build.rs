//! Links libbyte_product.a, the verified byte product by itself.

#[path = "../link.rs"]
mod link;

fn main() {
    link::archive(&["byte_product"], "../../..");
}
