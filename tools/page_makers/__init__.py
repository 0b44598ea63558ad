"""What makes the manual pages, the completions and the tables of pages, of what the help of each command says."""
