"""The cases of tests/journal: journals written by hand (`by_hand`), and files with a base (`bases`); journals of servers (`runs`); journals
drawn at random (`drawn`); and what the plain account says of a journal (`account`)."""
