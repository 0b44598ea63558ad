"""What tests share: the calls of the program and of tools, what is made for them, and second readings of the rules."""
