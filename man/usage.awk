# What a program says behind its line of usage, as roff.
!/^usage: / { print roff($0) }
