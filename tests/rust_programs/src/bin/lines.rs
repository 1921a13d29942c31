//! Shows each datagram of its input, a line each, `control HEX` or `user HEX`, as `gtpshow decode -` does, by the example `decode`.

// Its `main` is not called.
#[allow(dead_code)]
#[path = "../../../../examples/rust/src/bin/decode.rs"]
mod decode;

fn main() {
    for (number, line) in std::io::stdin().lines().enumerate() {
        let line = line.expect("a line");
        let (plane, digits) = line.split_once(' ').expect("a plane and digits");
        let octets = decode::octets_of(digits).expect("digits").into_boxed_slice();
        println!("datagram {number}");
        decode::show(&octets, plane == "user");
    }
}
