"""The man page and the completions: what commands there are, and the texts made of that."""
