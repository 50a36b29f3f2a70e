"""Reports in the forms of other tools: lcov, callgrind, Chrome's trace events, and a page to look at."""
