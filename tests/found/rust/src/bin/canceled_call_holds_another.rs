//! Two calls wait for a promise; the second has the result of the first as a parameter. Both are canceled.
use found::{ask, promise, result_of, tell, watch_for_panics};

fn main() {
    watch_for_panics("both calls should be canceled");
    let (open, _unfulfilled) = promise();
    let first = ask(&open, 1, None);
    let second = ask(&open, 2, Some(&result_of(&first)));
    drop(first);
    drop(second);
    tell(false, "the program goes on");
}
