"""What `tools/release` makes: packages, archives, pages and completions of the program that was proved and of the Python package."""
