"""What `bin/prove` is made of: what a program is made of and what was proved of it, by content."""
