"""What tools/translate writes: a file a language, and beside each a folder with the parts of its modules."""
