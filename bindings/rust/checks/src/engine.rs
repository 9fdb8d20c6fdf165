//! The two implementations behind one set of names.

use clockivy::words;
use clockivy_reference as reference;

/// The eleven calls.
pub trait Engine {
    /// What tables and messages call it.
    const NAME: &'static str;
    /// Opens a session.
    fn open(n: u64, own: u64, k: u64, last: u64, totals: &mut [u64], record: &mut [u64]) -> u64;
    /// Splits a bid.
    fn split(n: u64, own: u64, k: u64, table: &[u64], coins: &[u64], shares: &mut [u64]) -> u64;
    /// Splits one entry of a bid.
    fn split_entry(
        n: u64,
        own: u64,
        k: u64,
        entry: u64,
        table: &[u64],
        coins: &[u64],
        shares: &mut [u64],
    ) -> u64;
    /// Writes preprocessing.
    fn deal(n: u64, own: u64, last: u64, words: &[u64], bytes: &[u8], sheet: &mut [u64]) -> u64;
    /// Adds a bid.
    fn add(record: &mut [u64], totals: &mut [u64], bidder: u64, shares: &[u64]) -> u64;
    /// Says a message.
    fn say(record: &[u64], totals: &[u64], sheets: &[u64], messages: &mut [u64]) -> u64;
    /// Hears the messages of those who were present.
    fn hear(
        record: &mut [u64],
        totals: &[u64],
        sheets: &[u64],
        messages: &[u64],
        present: &[u8],
    ) -> u64;
    /// Asks for the answer.
    fn answer(record: &[u64], index: &mut u64, probes: &mut u64) -> u64;
    /// Asks for what a buyer gets.
    fn fill(record: &[u64], amount: u64, tenths: &mut u64, remainder: &mut u64) -> u64;
    /// Writes a settlement page.
    fn settlement_write(price: u64, amounts: &[u64], page: &mut [u8], written: &mut u64) -> u64;
    /// Reads a settlement page.
    fn settlement_read(price: u64, page: &[u8], amounts: &mut [u64]) -> u64;
}

macro_rules! engine {
    ($engine:ident, $name:literal, $library:ident, $doc:literal) => {
        #[doc = $doc]
        pub struct $engine;

        impl Engine for $engine {
            const NAME: &'static str = $name;

            fn open(
                n: u64,
                own: u64,
                k: u64,
                last: u64,
                totals: &mut [u64],
                record: &mut [u64],
            ) -> u64 {
                $library::open(n, own, k, last, totals, record)
            }

            fn split(
                n: u64,
                own: u64,
                k: u64,
                table: &[u64],
                coins: &[u64],
                shares: &mut [u64],
            ) -> u64 {
                $library::split(n, own, k, table, coins, shares)
            }

            fn split_entry(
                n: u64,
                own: u64,
                k: u64,
                entry: u64,
                table: &[u64],
                coins: &[u64],
                shares: &mut [u64],
            ) -> u64 {
                $library::split_entry(n, own, k, entry, table, coins, shares)
            }

            fn deal(
                n: u64,
                own: u64,
                last: u64,
                words: &[u64],
                bytes: &[u8],
                sheet: &mut [u64],
            ) -> u64 {
                $library::deal(n, own, last, words, bytes, sheet)
            }

            fn add(record: &mut [u64], totals: &mut [u64], bidder: u64, shares: &[u64]) -> u64 {
                $library::add(record, totals, bidder, shares)
            }

            fn say(record: &[u64], totals: &[u64], sheets: &[u64], messages: &mut [u64]) -> u64 {
                $library::say(record, totals, sheets, messages)
            }

            fn hear(
                record: &mut [u64],
                totals: &[u64],
                sheets: &[u64],
                messages: &[u64],
                present: &[u8],
            ) -> u64 {
                $library::hear(record, totals, sheets, messages, present)
            }

            fn answer(record: &[u64], index: &mut u64, probes: &mut u64) -> u64 {
                $library::answer(record, index, probes)
            }

            fn fill(record: &[u64], amount: u64, tenths: &mut u64, remainder: &mut u64) -> u64 {
                $library::fill(record, amount, tenths, remainder)
            }

            fn settlement_write(
                price: u64,
                amounts: &[u64],
                page: &mut [u8],
                written: &mut u64,
            ) -> u64 {
                $library::settlement_write(price, amounts, page, written)
            }

            fn settlement_read(price: u64, page: &[u8], amounts: &mut [u64]) -> u64 {
                $library::settlement_read(price, page, amounts)
            }
        }
    };
}

engine!(Verified, "verified", words, "The verified library.");
engine!(Plain, "plain", reference, "The plain reference.");

/// The byte product by itself.
pub trait ByteProduct {
    /// The product of two bytes.
    fn byte_product(a: u8, b: u8) -> u8;
}

impl ByteProduct for Verified {
    #[inline]
    fn byte_product(a: u8, b: u8) -> u8 {
        clockivy_byte_product::byte_product(a, b)
    }
}

impl ByteProduct for Plain {
    /// Not inlined, as the archive's cannot be: on both sides a product is one
    /// call.
    #[inline(never)]
    fn byte_product(a: u8, b: u8) -> u8 {
        reference::field::byte::mul(a, b)
    }
}
