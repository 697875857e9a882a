//! Gives options to `check` of pst.rs: in two spellings, twice, and those that it sets itself.
#![cfg(test)]
use pst_client::{check, Json, System};

struct Values;

impl System for Values {
    fn call(&self, _: &str, arguments: &[Json]) -> Json {
        Json::List(arguments.to_vec())
    }
}

#[test]
fn options() {
    let options = [("trials", "9"), ("branches", "3"), ("workers", "2"), ("limit", "50"), ("max-failures", "9"), ("max_failures", "1"), ("trials", "7")];
    check(&std::env::var("MODEL").unwrap(), || Values, &options);
}
