//! The interfaces of recorders/cpp/demo/library.capnp. Where capnpc is installed it generates such a file; Debian has
//! none for Rust.

use support::interface;

interface!(library 0x9322_360e_f704_a35c {
    find find_request 0 (0, 1) -> (0, 1);
    order order_request 1 (0, 1) -> (0, 1);
    tell tell_request 2 (0, 1) -> (0, 0);
});

interface!(book 0xa04b_49e0_d864_774a {
    read read_request 0 (0, 0) -> (0, 1);
});

interface!(listener 0xe485_ec71_a6ea_f0c1 {
    arrived arrived_request 0 (0, 1) -> (0, 0);
});
