//! The example compiles without a warning, links and tells what it should, as C
//! and as C++.

mod compile;

use compile::{root, run, C, CPP};

const EXPECTED: &str = "\
module 1, PUT comp/scale-3 = +120 ppm: OK
module 1, PUT test-load = 50 kg: OK
module 1, PUT _sys:boot = 1: no frame: refused with BAD_KEY
module 1, DEL test-load: OK
owners of comp/scale-3: modules 2 and 4
module 2, REPL comp/scale-3 = +120 ppm at (1736836800000, 0, 1): OK
module 2, REPL test-load deleted at (1736836800003, 0, 1): OK
module 2, GET comp/scale-3: VALUE +120 ppm
module 2, GET test-load: NOTFOUND
module 1, PUT comp/scale-3 = +95 ppm: OK
module 2, REPL comp/scale-3 = +95 ppm at (1736836800008, 0, 1): OK
module 2, REPL test-load deleted at (1736836800003, 0, 1): OK
spare store: comp/scale-3 = +95 ppm
spare store: test-load was deleted
spare store: comp/scale-9 was never seen
sp_store_lookup: refused with BAD_STORE
module 2, report on comp/scale-3: delivery 2 is in force
  delivery 0: earlier time
  delivery 1: another key
  delivery 2: won
  delivery 3: another key
module 2, report on test-load: delivery 1 is in force
  delivery 0: another key
  delivery 1: won
  delivery 2: another key
  delivery 3: the same entry again
module 2, report on comp/scale-9: never delivered
module 1 is restored from its card
module 1, PUT comp/scale-3 = +130 ppm: OK
module 2, REPL comp/scale-3 = +130 ppm at (1736836800008, 0, 1): OK
module 2, REPL test-load deleted at (1736836800003, 0, 1): OK
module 3, REPL comp/scale-3 = +130 ppm at (1736836800008, 0, 1): OK
module 3, REPL test-load deleted at (1736836800003, 0, 1): OK
module 3, REPL comp/scale-3 = +95 ppm at (1736836800008, 0, 1): OK
module 3, REPL test-load deleted at (1736836800003, 0, 1): OK
module 2, GET comp/scale-3: VALUE +95 ppm
module 3, GET comp/scale-3: VALUE +95 ppm
module 2, report on comp/scale-3: delivery 2 is in force
  delivery 0: earlier time
  delivery 1: another key
  delivery 2: won
  delivery 3: another key
  delivery 4: same stamp, lower contents
  delivery 5: another key
module 3, report on comp/scale-3: delivery 2 is in force
  delivery 0: same stamp, lower contents
  delivery 1: another key
  delivery 2: won
  delivery 3: another key
module 1 merges the store of module 2: passed over: 0
module 1, purge line from 0 to 1736836800020: tombstones removed: 1
module 2, purge line from 0 to 1736836800020: tombstones removed: 1
module 3, purge line from 0 to 1736836800020: tombstones removed: 1
sp_store_merge: refused with UNEQUAL_LINES
module 2, REPL comp/scale-3 = +120 ppm at (1736836800000, 0, 1): OK
module 2, REPL test-load = 50 kg at (1736836800001, 0, 1): ERR BELOW_LINE
module 2, GET test-load: NOTFOUND
module 2 merges the store of module 4: passed over: 0
";

#[test]
fn the_example_tells_what_it_should() {
    let source = root().join("rust/snowpulley-sys/example/example.c");
    for (name, language) in [("example-c", C), ("example-cpp", CPP)] {
        let output = run(name, language, &source);
        assert_eq!(String::from_utf8_lossy(&output.stdout), EXPECTED, "{name}");
        assert!(output.status.success(), "{name}");
    }
}
