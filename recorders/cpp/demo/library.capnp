@0xb1a5f2c0d7e94d63;

interface Library {
  find @0 (title :Text) -> (book :Book);
  # A book on the shelf: a client can read it before this call has returned.

  order @1 (title :Text) -> (book :Book);
  # A book that isn't there yet: the result is a promise.

  tell @2 (listener :Listener) -> ();
  # Says who is told of ordered books that arrive.
}

interface Book {
  read @0 () -> (text :Text);
}

interface Listener {
  arrived @0 (title :Text) -> ();
}
