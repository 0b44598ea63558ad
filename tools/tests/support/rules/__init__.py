"""Second readings of the rules, for tests that ask what an answer must be. They are written from the rules alone, so that they share no
mistake with the program."""
