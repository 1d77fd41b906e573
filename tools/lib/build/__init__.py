"""A build of the program by `rt ci`: how far it is, what it takes, and how long it still takes."""
